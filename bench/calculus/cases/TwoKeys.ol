interface I { RequestResponse: go(void)(any) }
service S {
  execution: single
  inputPort In { location: "socket://localhost:8000" protocol: jsonrpc interfaces: I }
  main { go()(y) { scope(f) { install(this => y = y + "s", f => y = y + "a", g => y = y + "x") ; install(this => cH ; y = y + "t", f => cH ; y = y + "b", g => cH ; y = y + "c") ; throw(g) } ; comp(f) } }
}
