type Res: void { c?: string end?: string t?: string }
interface I { RequestResponse: go(void)(Res) OneWay: pause(void) }
service S {
  execution: single
  inputPort In { location: "socket://localhost:8000" protocol: jsonrpc interfaces: I }
  main { go()(y) { scope(outer) { install(bad => y.end = "handled") ; { scope(left) { install(this => throw(inner) ; y.t = "no") ; scope(child) { install(this => y.c = y.c + "c") } ; pause() } | scope(right) { throw(bad) } } } } }
}
