// The shop of the soak: that of examples/order.ol, which prints what it does with each order.
type Order: void { id: string n: int price: int }
type Item: void { id: string n: int }
type Pay: void { id: string amount: int }

interface ShopI {
  RequestResponse: order(Order)(string) throws Invalid(string)
}

interface StockI {
  RequestResponse:
    reserve(Item)(int) throws Short,
    release(Item)(int)
}

interface BankI {
  RequestResponse:
    pay(Pay)(int) throws NoFunds,
    refund(Pay)(int)
}

service Shop {
  execution: concurrent
  inputPort In { location: "socket://127.0.0.1:8000" protocol: jsonrpc interfaces: ShopI }
  outputPort Stock { location: "local://stock" interfaces: StockI }
  outputPort Bank { location: "local://bank" interfaces: BankI }
  main {
    order(o)(y) {
      println@Console("order " + o.id)() ;
      if (o.n < 1 || o.n > 1000) { throw(Invalid, "n") } ;
      if (o.price < 0 || o.price > 1000000) { throw(Invalid, "price") } ;
      scope(all) {
        install(
          Short => comp(payment) ; y = "short",
          NoFunds => comp(goods) ; y = "no funds"
        ) ;
        {
          scope(goods) {
            reserve@Stock({ id = o.id, n = o.n })(left) [
              this => release@Stock({ id = o.id, n = o.n })(left)
            ]
          }
        |
          scope(payment) {
            pay@Bank({ id = o.id, amount = o.n * o.price })(funds) [
              this => refund@Bank({ id = o.id, amount = o.n * o.price })(funds)
            ]
          }
        } ;
        y = "ok, " + left + " left, " + funds + " to spend"
      }
    }
  }
}

service StockS {
  execution: single
  inputPort In { location: "local://stock" interfaces: StockI }
  init { left = 300 }
  main {
    while (true) {
      scope(turn) {
        install(Short => nullProcess, ExprFault => nullProcess) ;
        [ reserve(i)(r) {
            if (i.n < 1 || i.n > left) { throw(Short) } ;
            left = left - i.n ;
            println@Console("reserved " + i.id + " " + i.n + " " + left)() ;
            r = left
        } ] { nullProcess }
        [ release(i)(r) {
            left = left + i.n ;
            println@Console("released " + i.id + " " + i.n + " " + left)() ;
            r = left
        } ] { nullProcess }
      }
    }
  }
}

service BankS {
  execution: single
  inputPort In { location: "local://bank" interfaces: BankI }
  init { funds = 5000 }
  main {
    while (true) {
      scope(turn) {
        install(NoFunds => nullProcess, ExprFault => nullProcess) ;
        [ pay(p)(r) {
            if (p.amount < 0 || p.amount > funds) { throw(NoFunds) } ;
            funds = funds - p.amount ;
            println@Console("paid " + p.id + " " + p.amount + " " + funds)() ;
            r = funds
        } ] { nullProcess }
        [ refund(p)(r) {
            funds = funds + p.amount ;
            println@Console("refunded " + p.id + " " + p.amount + " " + funds)() ;
            r = funds
        } ] { nullProcess }
      }
    }
  }
}
