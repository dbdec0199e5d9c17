interface I { RequestResponse: go(void)(any) }
service S {
  execution: single
  inputPort In { location: "socket://localhost:8000" protocol: jsonrpc interfaces: I }
  main { go()(y) { scope(outer) { { scope(middle) { scope(inner) { throw(f) } } | install(f => y = 1) | scope(aside) { nullProcess } | install(g => y = 2) } } } }
}
