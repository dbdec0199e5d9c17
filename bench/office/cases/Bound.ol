type B: void { key: string }
type Next: void { sid: string }
interface I { RequestResponse: begin(B)(int), more(Next)(int) }
service S {
  execution: concurrent
  inputPort In { location: "socket://localhost:8000" protocol: jsonrpc interfaces: I }
  cset { sid: Next.sid }
  main { begin(x)(y) { csets.sid = x.key ; y = 1 } ; more(z)(w) { w = 2 } }
}
