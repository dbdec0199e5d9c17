interface I { OneWay: note(string) }
service S {
  execution: single
  inputPort In { location: "socket://localhost:8000" protocol: jsonrpc interfaces: I }
  main { note(x) ; println@Console("got " + x)() }
}
