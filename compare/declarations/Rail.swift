// A railway: words that come again, and substitutions.

// Section: Words that come again

// = nominal type descriptor for Rail.RailCar
struct RailCar {
    // = Rail.RailCar.coupleCar(toRailCar: Rail.RailCar) -> Swift.Bool
    func coupleCar(toRailCar other: RailCar) -> Bool { true }
}

class NightTrain {
    // = Rail.NightTrain.addNightCar(_: Rail.RailCar, beforeNightCar: Rail.RailCar) -> ()
    func addNightCar(_ car: RailCar, beforeNightCar next: RailCar) {}

    // = nominal type descriptor for Rail.NightTrain.TrainNight
    enum TrainNight { case clear, dark }
}

// = Rail.night_train(HTTPServer: Swift.String, trainServer: Swift.String) -> ()
func night_train(HTTPServer: String, trainServer: String) {}

// Section: Substitutions

struct Stop {}
struct Line {}

// = Rail.delay(minutes: Swift.Int) -> Swift.Int
func delay(minutes: Int) -> Int { minutes }

// = Rail.join(Rail.Line) -> Rail.Line
func join(_ line: Line) -> Line { line }

// = Rail.merge(Rail.Line, Rail.Line, Rail.Line) -> ()
func merge(_ one: Line, _ two: Line, _ three: Line) {}

// = Rail.ride(Rail.Stop, Rail.Line, Rail.Stop, Rail.Line) -> (Rail.Line, Rail.Stop)
func ride(_ a: Stop, _ b: Line, _ c: Stop, _ d: Line) -> (Line, Stop) { (b, a) }

// = Rail.seats([Swift.Int?], [Swift.Int?]) -> Swift.Int?
func seats(_ free: [Int?], _ taken: [Int?]) -> Int? { nil }

// = Rail.A.B.C.D.E.F.G.H.I.J.K.L.M.turn(Rail.A.B.C.D.E.F.G.H.I.J.K.L.M) -> Swift.Bool
enum A { enum B { enum C { enum D { enum E { enum F { enum G { enum H { enum I { enum J {
    enum K { enum L { struct M { func turn(_ m: M) -> Bool { true } } } } } } } } } } } } } }
