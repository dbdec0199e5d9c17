type Start: void { sid: string }
type Next: void { sid: string }
interface I { RequestResponse: open(Start)(string), more(Next)(string) }
service S {
  execution: concurrent
  inputPort In { location: "socket://localhost:8000" protocol: jsonrpc interfaces: I }
  cset { sid: Start.sid Next.sid }
  main { open(x)(y) { y = "o" + x.sid } ; more(z)(w) { w = "m" + z.sid } }
}
