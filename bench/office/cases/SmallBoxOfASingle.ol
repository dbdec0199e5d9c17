interface I { RequestResponse: go(void)(int) OneWay: pause(void) }
service S {
  inputPort In { location: "socket://localhost:8000" protocol: jsonrpc interfaces: I }
  main { go()(y) { pause() } }
}
