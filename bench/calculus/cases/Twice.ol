type Req: void { n: int }
interface I { RequestResponse: twice(Req)(int) }
service S {
  execution: concurrent
  inputPort In { location: "socket://localhost:8000" protocol: jsonrpc interfaces: I }
  main { twice(x)(y) { y = x.n * 2 } }
}
