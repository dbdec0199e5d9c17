interface I { RequestResponse: go(void)(any) OneWay: halt(void) }
interface Q { RequestResponse: ask(void)(void) }
service S {
  execution: single
  inputPort In { location: "socket://localhost:8000" protocol: jsonrpc interfaces: I }
  outputPort P { location: "local://p" interfaces: Q }
  main { go()(y) { scope(left) { install(this => z = 1, f => z = 2) ; { ask@P()() | throw(f) } } } | { halt() ; throw(g) } }
}
