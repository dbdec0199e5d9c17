interface I { RequestResponse: go(void)(int) }
service S {
  inputPort In { location: "socket://localhost:8000" protocol: jsonrpc interfaces: I }
  main { go()(y) { i = 0 ; while (i < 2) { i++ } ; y = i } }
}
