// Amounts in another currency, by the rates of a service elsewhere that is called over HTTP: rates.py is one. While
// nobody answers there, an amount stays as it is.
type Amount: void { cents: int currency: string }
type Pair: void { from: string to: string }

interface TillI {
  RequestResponse: convert(Amount)(Amount) throws Unknown(string)
}

interface RatesI {
  RequestResponse: rate(Pair)(int) throws Unknown(string)
}

service Till {
  execution: concurrent
  inputPort In { location: "socket://localhost:8000" protocol: jsonrpc interfaces: TillI }
  outputPort Rates { location: "socket://localhost:9000/rates" protocol: jsonrpc interfaces: RatesI }
  main {
    convert(euros)(y) {
      scope(asked) {
        install(IOException => y.cents = euros.cents ; y.currency = "EUR") ;
        rate@Rates({ from = "EUR", to = euros.currency })(hundredths) ;
        y.cents = euros.cents * hundredths / 100 ;
        y.currency = euros.currency
      }
    }
  }
}
