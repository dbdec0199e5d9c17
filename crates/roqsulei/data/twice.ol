type Req: void { n: int }
interface TwiceI { RequestResponse: twice(Req)(int) }
service Twice {
  execution: concurrent
  inputPort In { location: "socket://localhost:8000" protocol: jsonrpc interfaces: TwiceI }
  main { twice(x)(y) { y = x.n * 2 } }
}
