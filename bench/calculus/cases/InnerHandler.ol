interface I { RequestResponse: go(void)(string) }
service S {
  execution: single
  inputPort In { location: "socket://localhost:8000" protocol: jsonrpc interfaces: I }
  main { go()(y) { scope(s) { install(f => y = "a") ; install(f => cH ; y = y + "b") ; throw(f) } } }
}
