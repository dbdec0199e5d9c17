// A trip of five bookings, one after the other. Where one of them fails, those before it are cancelled, the last first.
type Trip: void { full?: string }

interface TripI {
  RequestResponse: trip(Trip)(string)
}

interface PartI {
  RequestResponse:
    book(Trip)(int) throws NotFree(string),
    cancel(Trip)(int)
}

service TripS {
  execution: concurrent
  inputPort In { location: "socket://localhost:8000" protocol: jsonrpc interfaces: TripI }
  outputPort Flight { location: "local://flight" interfaces: PartI }
  outputPort Hotel { location: "local://hotel" interfaces: PartI }
  outputPort Car { location: "local://car" interfaces: PartI }
  outputPort Guide { location: "local://guide" interfaces: PartI }
  outputPort Cover { location: "local://cover" interfaces: PartI }
  main {
    trip(t)(y) {
      scope(all) {
        install(NotFree => y = all.NotFree + " is not free" + undone) ;
        book@Flight(t)(n) [ NotFree => cancel@Flight(t)(n) ; undone = undone + ", flight " + n ; cH ] ;
        book@Hotel(t)(n) [ NotFree => cancel@Hotel(t)(n) ; undone = undone + ", hotel " + n ; cH ] ;
        book@Car(t)(n) [ NotFree => cancel@Car(t)(n) ; undone = undone + ", car " + n ; cH ] ;
        book@Guide(t)(n) [ NotFree => cancel@Guide(t)(n) ; undone = undone + ", guide " + n ; cH ] ;
        book@Cover(t)(n) ;
        y = "booked, " + n + " in all"
      }
    }
  }
}

// Each part counts its bookings, so that one that is cancelled twice shows.
service FlightS {
  inputPort In { location: "local://flight" interfaces: PartI }
  init { name = "flight" ; booked = 0 }
  main {
    while (true) {
      scope(turn) {
        install(NotFree => nullProcess, ExprFault => nullProcess) ;
        [ book(t)(n) { if (t.full == name) { throw(NotFree, name) } ; booked++ ; n = booked } ] { nullProcess }
        [ cancel(t)(n) { booked-- ; n = booked } ] { nullProcess }
      }
    }
  }
}

service HotelS {
  inputPort In { location: "local://hotel" interfaces: PartI }
  init { name = "hotel" ; booked = 0 }
  main {
    while (true) {
      scope(turn) {
        install(NotFree => nullProcess, ExprFault => nullProcess) ;
        [ book(t)(n) { if (t.full == name) { throw(NotFree, name) } ; booked++ ; n = booked } ] { nullProcess }
        [ cancel(t)(n) { booked-- ; n = booked } ] { nullProcess }
      }
    }
  }
}

service CarS {
  inputPort In { location: "local://car" interfaces: PartI }
  init { name = "car" ; booked = 0 }
  main {
    while (true) {
      scope(turn) {
        install(NotFree => nullProcess, ExprFault => nullProcess) ;
        [ book(t)(n) { if (t.full == name) { throw(NotFree, name) } ; booked++ ; n = booked } ] { nullProcess }
        [ cancel(t)(n) { booked-- ; n = booked } ] { nullProcess }
      }
    }
  }
}

service GuideS {
  inputPort In { location: "local://guide" interfaces: PartI }
  init { name = "guide" ; booked = 0 }
  main {
    while (true) {
      scope(turn) {
        install(NotFree => nullProcess, ExprFault => nullProcess) ;
        [ book(t)(n) { if (t.full == name) { throw(NotFree, name) } ; booked++ ; n = booked } ] { nullProcess }
        [ cancel(t)(n) { booked-- ; n = booked } ] { nullProcess }
      }
    }
  }
}

service CoverS {
  inputPort In { location: "local://cover" interfaces: PartI }
  init { name = "cover" ; booked = 0 }
  main {
    while (true) {
      scope(turn) {
        install(NotFree => nullProcess, ExprFault => nullProcess) ;
        [ book(t)(n) { if (t.full == name) { throw(NotFree, name) } ; booked++ ; n = booked } ] { nullProcess }
        [ cancel(t)(n) { booked-- ; n = booked } ] { nullProcess }
      }
    }
  }
}
