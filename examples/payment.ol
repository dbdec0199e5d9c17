// A payment that is tried again while the card's bank is busy, three times at most. Once the card is charged, a further
// handler gives the money back should the ledger not take the entry, and goes on with the handler from before.
type Pay: void { card: string amount: int }

interface PaymentI {
  RequestResponse: pay(Pay)(string) throws Invalid(string)
}

interface CardI {
  RequestResponse:
    charge(Pay)(int) throws Busy,
    giveBack(Pay)(int)
}

interface LedgerI {
  RequestResponse: enter(Pay)(int) throws OverLimit
}

service Payment {
  execution: concurrent
  inputPort In { location: "socket://localhost:8000" protocol: jsonrpc interfaces: PaymentI }
  outputPort Card { location: "local://card" interfaces: CardI }
  outputPort Ledger { location: "local://ledger" interfaces: LedgerI }
  main {
    pay(p)(y) {
      if (p.amount < 1 || p.amount > 1000000) { throw(Invalid, "amount") } ;
      scope(all) {
        install(
          GaveUp => y = "gave up after " + tries + " tries",
          OverLimit => y = "over the limit"
        ) ;
        tries = 0 ;
        charged = false ;
        while (!charged) {
          scope(attempt) {
            install(Busy => if (tries == 3) { throw(GaveUp) }) ;
            tries++ ;
            charge@Card({ card = p.card, amount = p.amount })(taken) ;
            charged = true
          }
        } ;
        install(OverLimit =>
          giveBack@Card({ card = p.card, amount = p.amount })(taken) ;
          cH ;
          y = y + ", " + taken + " taken in all"
        ) ;
        enter@Ledger({ card = p.card, amount = p.amount })(balance) ;
        y = "paid at try " + tries + ", " + balance + " in the ledger"
      }
    }
  }
}

// A card's bank that is busy at its first two calls, and always for one card.
service CardS {
  execution: single
  inputPort In { location: "local://card" interfaces: CardI }
  init { calls = 0 ; taken = 0 }
  main {
    while (true) {
      scope(turn) {
        install(Busy => nullProcess, ExprFault => nullProcess) ;
        [ charge(c)(r) {
            calls++ ;
            if (calls <= 2 || c.card == "slow") { throw(Busy) } ;
            taken = taken + c.amount ;
            r = taken
        } ] { nullProcess }
        [ giveBack(c)(r) {
            taken = taken - c.amount ;
            r = taken
        } ] { nullProcess }
      }
    }
  }
}

service LedgerS {
  execution: single
  inputPort In { location: "local://ledger" interfaces: LedgerI }
  init { balance = 0 }
  main {
    while (true) {
      scope(turn) {
        install(OverLimit => nullProcess, ExprFault => nullProcess) ;
        enter(e)(r) {
          if (e.amount > 500) { throw(OverLimit) } ;
          balance = balance + e.amount ;
          r = balance
        }
      }
    }
  }
}
