interface I { RequestResponse: go(void)(int) }
service S {
  execution: single
  inputPort In { location: "socket://localhost:8000" protocol: jsonrpc interfaces: I }
  main { go()(y) { scope(s) { throw(f) | install(f => y = 1) } } }
}
