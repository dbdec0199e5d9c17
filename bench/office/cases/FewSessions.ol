type Key: void { k: int }
interface I { RequestResponse: open(Key)(int), more(Key)(int) }
interface J { RequestResponse: ask(int)(int) }
service A {
  inputPort In { location: "socket://localhost:8000" protocol: jsonrpc interfaces: J }
  main { ask(x)(y) { y = x } }
}
service B {
  execution: concurrent
  inputPort In { location: "socket://localhost:8001" protocol: jsonrpc interfaces: I }
  cset { k: Key.k }
  main { open(x)(y) { y = 1 } ; more(x)(y) { y = 2 } }
}
