// A ledger that lives as long as the run. An entry that would overdraw it, or pass what an int holds, is refused, and
// the next one finds the ledger as it was. So does one after a statement that is too long for one answer (TypeMismatch).
type Entry: void { text: string amount: int }
type Statement: void { balance: int entry*: Entry }

interface LedgerI {
  RequestResponse:
    enter(Entry)(int) throws Overdrawn(int),
    statement(void)(Statement)
  OneWay:
    clear(void)
}

service Ledger {
  execution: single
  inputPort In { location: "socket://localhost:8000" protocol: jsonrpc interfaces: LedgerI }
  init { balance = 0 }
  main {
    while (true) {
      scope(turn) {
        install(Overdrawn => nullProcess, ExprFault => nullProcess, TypeMismatch => nullProcess) ;
        [ enter(e)(r) {
            sum = balance + e.amount ;
            if (sum < 0) { throw(Overdrawn, -sum) } ;
            balance = sum ;
            entries[#entries] << e ;
            r = balance
        } ] { nullProcess }
        [ statement()(s) {
            undef(s) ;
            s.balance = balance ;
            for (i = 0, i < #entries, i++) { s.entry[i] << entries[i] }
        } ] { nullProcess }
        [ clear() ] { balance = 0 ; undef(entries) }
      }
    }
  }
}
