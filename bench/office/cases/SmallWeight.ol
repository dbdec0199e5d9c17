interface I { RequestResponse: go(int)(int) }
service S {
  execution: concurrent
  inputPort In { location: "socket://localhost:8000" protocol: jsonrpc interfaces: I }
  main { go(x)(y) { y = x } }
}
