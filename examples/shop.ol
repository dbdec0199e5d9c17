// What a number of things costs, at three a piece.
type Item: void { name: string n: int }

interface ShopI { RequestResponse: price(Item)(string) throws Invalid(string) }

service Shop {
  execution: concurrent
  inputPort In { location: "socket://localhost:8000" protocol: jsonrpc interfaces: ShopI }
  main {
    price(item)(answer) {
      if (item.n < 1) { throw(Invalid, "n") } ;
      answer = item.n + " of " + item.name + " cost " + item.n * 3
    }
  }
}
