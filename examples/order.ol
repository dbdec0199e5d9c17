// Orders of a shop: what is ordered is reserved and paid at the same time, and what was done of a failed order is undone.
// An order whose numbers are out of range is refused before anything is done, with the name of the field.
type Order: void { id: string sku: string n: int price: int }
type Item: void { sku: string n: int }
type Pay: void { id: string amount: int }

interface ShopI {
  RequestResponse: order(Order)(string) throws Invalid(string)
}

interface StockI {
  RequestResponse:
    reserve(Item)(int) throws Short,
    release(Item)(int)
}

interface BankI {
  RequestResponse:
    pay(Pay)(int) throws NoFunds,
    refund(Pay)(int)
}

service Shop {
  execution: concurrent
  inputPort In { location: "socket://localhost:8000" protocol: jsonrpc interfaces: ShopI }
  outputPort Stock { location: "local://stock" interfaces: StockI }
  outputPort Bank { location: "local://bank" interfaces: BankI }
  main {
    order(o)(y) {
      if (o.n < 1 || o.n > 1000) { throw(Invalid, "n") } ;
      if (o.price < 0 || o.price > 1000000) { throw(Invalid, "price") } ;
      scope(all) {
        install(
          Short => comp(payment) ; y = "short",
          NoFunds => comp(goods) ; y = "no funds"
        ) ;
        {
          scope(goods) {
            reserve@Stock({ sku = o.sku, n = o.n })(left) [
              this => release@Stock({ sku = o.sku, n = o.n })(left)
            ]
          }
        |
          scope(payment) {
            pay@Bank({ id = o.id, amount = o.n * o.price })(funds) [
              this => refund@Bank({ id = o.id, amount = o.n * o.price })(funds)
            ]
          }
        } ;
        y = "ok, " + left + " left, " + funds + " to spend"
      }
    }
  }
}

// The goods: one session, which lives as long as the run. A fault of one turn leaves the next ones as they are, since the
// turn's scope names each fault that its body can have: its own, and ExprFault of a number that no int holds.
service StockS {
  execution: single
  inputPort In { location: "local://stock" interfaces: StockI }
  init { left = 10 }
  main {
    while (true) {
      scope(turn) {
        install(Short => nullProcess, ExprFault => nullProcess) ;
        [ reserve(i)(r) {
            if (i.n < 1 || i.n > left) { throw(Short) } ;
            left = left - i.n ;
            r = left
        } ] { nullProcess }
        [ release(i)(r) {
            left = left + i.n ;
            r = left
        } ] { nullProcess }
      }
    }
  }
}

// The money of all customers together.
service BankS {
  execution: single
  inputPort In { location: "local://bank" interfaces: BankI }
  init { funds = 100 }
  main {
    while (true) {
      scope(turn) {
        install(NoFunds => nullProcess, ExprFault => nullProcess) ;
        [ pay(p)(r) {
            if (p.amount < 0 || p.amount > funds) { throw(NoFunds) } ;
            funds = funds - p.amount ;
            r = funds
        } ] { nullProcess }
        [ refund(p)(r) {
            funds = funds + p.amount ;
            r = funds
        } ] { nullProcess }
      }
    }
  }
}
