interface I { RequestResponse: go(void)(int) }
service S {
  execution: single
  inputPort In { location: "socket://localhost:8000" protocol: jsonrpc interfaces: I }
  main { go()(y) { install(f => y = 1) ; i = 0 ; while (i < 16) { install(f => cH ; cH) ; i++ } ; y = i } }
}
