interface I { RequestResponse: go(int)(undefined) }
interface Q { OneWay: tell(long) RequestResponse: ask(long)(void) }
type Key: void { k: string }
interface J { OneWay: next(Key) }
service S {
  execution: concurrent
  inputPort In { location: "socket://localhost:8000" protocol: jsonrpc interfaces: I, J }
  outputPort P { location: "local://p" interfaces: Q }
  cset { v: Key.k }
  main { go(n)(y) { scope(s) {
    install(ExprFault => y = "expr", TypeMismatch => y = "type", HandlerTooLarge => y = "handler", f => y << s.f) ;
    if (n == 1) { x = 1 / 0 } else { if (n == 2) { x << a[0 - 1] } else { if (n == 3) { undef(a["i"]) } else { if (n == 4) { csets.v = a }
    else { if (n == 5) { csets.v = -"x" } else { if (n == 6) { if (5) { x = 1 } } else { if (n == 7) { while ("t") { x = 1 } }
    else { if (n == 8) { tell@P("t") } else { if (n == 9) { tell@P(1 + true) } else { if (n == 10) { ask@P("t")() }
    else { if (n == 11) { throw(f, 1 % 0) } else { if (n == 12) { throw(f, { .a = n }) } else { if (n == 13) { tell@P(n) }
    else { x.a = 1 ; x << x ; undef(x.a) ; csets.v = "k" } } } } } } } } } } } } }
    } } ; next(z) }
}
