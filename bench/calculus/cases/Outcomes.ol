interface I { RequestResponse: go(void)(any) }
interface O { RequestResponse: other(void)(void) }
interface Q { RequestResponse: ask(long)(long) throws odd(long) even OneWay: tell(long) }
service S {
  execution: single
  inputPort In { location: "socket://localhost:8000" protocol: jsonrpc interfaces: I }
  outputPort R { location: "local://o" interfaces: O }
  outputPort P { location: "local://p" interfaces: Q }
  main { go()(y) { scope(s) {
    install(odd => y = s.odd, even => y = "even", UndeclaredFault => y = "undeclared", Refused => y = s.Refused,
      TypeMismatch => y = "mismatch", CorrelationError => y = "correlation", IOException => y = s.IOException) ;
    ask@P(1)(y) } } }
}
