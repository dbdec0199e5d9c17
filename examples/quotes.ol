// Quotes of three sellers, asked for at the same time. The first that does not sell the thing ends the others.
type Ask: void { item: string n: int }
type Quotes: void { best?: int north?: int south?: int east?: int error?: string }

interface QuotesI {
  RequestResponse: quotes(Ask)(Quotes)
}

interface SellerI {
  RequestResponse: quote(Ask)(int) throws NotSold
}

service Buyer {
  execution: concurrent
  inputPort In { location: "socket://localhost:8000" protocol: jsonrpc interfaces: QuotesI }
  outputPort North { location: "local://north" interfaces: SellerI }
  outputPort South { location: "local://south" interfaces: SellerI }
  outputPort East { location: "local://east" interfaces: SellerI }
  main {
    quotes(a)(y) {
      scope(all) {
        install(NotSold => y.error = "not sold by all") ;
        {
          quote@North({ item = a.item, n = a.n })(y.north)
        |
          quote@South({ item = a.item, n = a.n })(y.south)
        |
          quote@East({ item = a.item, n = a.n })(y.east)
        } ;
        y.best = y.north ;
        if (y.south < y.best) { y.best = y.south } ;
        if (y.east < y.best) { y.best = y.east }
      } ;
      println@Console(a.item + ": " + y.best + y.error)()
    }
  }
}

service NorthS {
  execution: concurrent
  inputPort In { location: "local://north" interfaces: SellerI }
  main {
    quote(a)(price) {
      if (a.item == "cog") { throw(NotSold) } ;
      price = a.n * 3
    }
  }
}

service SouthS {
  execution: concurrent
  inputPort In { location: "local://south" interfaces: SellerI }
  main {
    quote(a)(price) { price = a.n * 2 + 5 }
  }
}

service EastS {
  execution: concurrent
  inputPort In { location: "local://east" interfaces: SellerI }
  main {
    quote(a)(price) {
      if (a.item == "nut") { throw(NotSold) } ;
      price = a.n * 4 - 2
    }
  }
}
