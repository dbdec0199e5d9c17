interface I { RequestResponse: go(void)(any) OneWay: pause(void), halt(void) }
service S {
  execution: single
  inputPort In { location: "socket://localhost:8000" protocol: jsonrpc interfaces: I }
  main { go()(y) { scope(left) { { scope(done) { install(this => y = "t") } | pause() } } } | { halt() ; throw(g) } }
}
