interface I { RequestResponse: go(void)(any) }
service S {
  execution: single
  inputPort In { location: "socket://localhost:8000" protocol: jsonrpc interfaces: I }
  main { go()(y) { { nullProcess ; { a = 1 | b = 2 } } | { c = 3 | d = 4 } } }
}
