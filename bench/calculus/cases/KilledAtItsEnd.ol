interface I { RequestResponse: go(void)(any) }
service S {
  execution: single
  inputPort In { location: "socket://localhost:8000" protocol: jsonrpc interfaces: I }
  main { go()(y) { scope(outer) { install(f => comp(done) ; y = "h") ; { scope(mid) { { scope(done) { install(this => y = "t") } | throw(f) } } } } } }
}
