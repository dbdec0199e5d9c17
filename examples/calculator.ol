type Pair: void { minuend: int subtrahend: int }
type Numbers: void { n*: int }
type Data: void { list*: any }

interface CalcI {
  RequestResponse: subtract(Pair)(int), sum(Numbers)(int), get_data(void)(Data)
  OneWay: update(any), notify_hello(int)
}

service Calc {
  execution: concurrent
  inputPort In { location: "socket://localhost:8000" protocol: jsonrpc interfaces: CalcI }
  main {
    [ subtract(x)(y) { y = x.minuend - x.subtrahend } ] { nullProcess }
    [ sum(x)(y) { y = x.n[0] + x.n[1] + x.n[2] } ] { nullProcess }
    [ get_data()(y) { y.list[0] = "hello" ; y.list[1] = 5 } ] { nullProcess }
    [ update(x) ] { last << x }
    [ notify_hello(name) ] { greeted = name }
  }
}
