interface I { RequestResponse: go(void)(any) }
interface Q { RequestResponse: ask(int)(int) throws odd(long) }
service S {
  execution: single
  inputPort In { location: "socket://localhost:8000" protocol: jsonrpc interfaces: I }
  outputPort P { location: "local://p" interfaces: Q }
  main { go()(y) { scope(q) { install(f => comp(q) ; y = c) ; { ask@P(1)(r) [this => c = 1] | throw(f) } } } }
}
service T {
  execution: single
  inputPort In { location: "local://p" interfaces: Q }
  main { ask(a)(b) { b = a } }
}
