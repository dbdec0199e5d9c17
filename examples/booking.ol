// A booking in three messages: book holds seats, pay pays them, confirm ends it. Until then cancel gives the seats back.
// Each message goes to the session whose booking it names. A choice takes one message, whichever comes first.
type Book: void { booking: string seats: int }
type Step: void { booking: string }
type Seats: void { n: int }

interface BookingI {
  RequestResponse:
    book(Book)(string) throws Full Invalid(string),
    pay(Step)(string),
    confirm(Step)(string),
    cancel(Step)(string)
}

interface HallI {
  RequestResponse:
    hold(Seats)(int) throws Full,
    free(Seats)(int)
}

service Booking {
  execution: concurrent
  inputPort In { location: "socket://localhost:8000" protocol: jsonrpc interfaces: BookingI }
  outputPort Hall { location: "local://hall" interfaces: HallI }
  cset { booking: Book.booking Step.booking }
  main {
    book(b)(held) {
      if (b.seats < 1) { throw(Invalid, "seats") } ;
      scope(seats) {
        hold@Hall({ n = b.seats })(left) [ this => free@Hall({ n = b.seats })(left) ]
      } ;
      held = "held, " + left + " left"
    } ;
    install(Cancelled => comp(seats)) ;
    [ pay(p)(paid) { paid = "paid" } ] {
      [ confirm(c)(done) { done = "booked" } ] { nullProcess }
      [ cancel(x)(back) { back = "cancelled" } ] { throw(Cancelled) }
    }
    [ cancel(x)(back) { back = "cancelled" } ] { throw(Cancelled) }
  }
}

service HallS {
  execution: single
  inputPort In { location: "local://hall" interfaces: HallI }
  init { left = 10 }
  main {
    while (true) {
      scope(turn) {
        install(Full => nullProcess, ExprFault => nullProcess) ;
        [ hold(s)(r) {
            if (s.n < 1 || s.n > left) { throw(Full) } ;
            left = left - s.n ;
            r = left
        } ] { nullProcess }
        [ free(s)(r) {
            left = left + s.n ;
            r = left
        } ] { nullProcess }
      }
    }
  }
}
