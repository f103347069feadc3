// A zoo: modules and types, nested types, functions and their labels.
//
// `// =` has the text of one compiled name of the declaration after it, as the Rust prints it, and
// `// ~` that of one that the declaration brings with it; compare/declared finds the name.
// `// Section:` names the table of docs/NAMES.md that the rows after it go into.

// Section: Modules and types

// ~ module descriptor Zoo
// = nominal type descriptor for Zoo.Ticket
struct Ticket { var price: Int }

// = nominal type descriptor for Zoo.Animal
class Animal {}

// = nominal type descriptor for Zoo.Meal
enum Meal { case hay, fish }

// = protocol descriptor for Zoo.Feeder
protocol Feeder {}

typealias Name = String

// = Zoo.call(Swift.String) -> ()
func call(_ name: Name) {}

// Section: Nested types

enum House {
    struct Door {
        // = nominal type descriptor for Zoo.House.Door.Lock
        enum Lock { case open, shut }

        // = Zoo.House.Door.fit(Zoo.House.Door.Lock) -> Zoo.House.Door
        func fit(_ lock: Lock) -> Door { self }
    }
}

extension House {
    // = nominal type descriptor for Zoo.House.Roof
    struct Roof {}
}

// = anonymous descriptor Zoo.census() -> Swift.Int
func census() -> Int { struct Tally { var count = 0 }; return Tally().count }

// Section: Functions and labels

// = Zoo.open() -> ()
func open() {}

// = Zoo.weigh(Zoo.Animal) -> Swift.Double
func weigh(_ animal: Animal) -> Double { 0 }

// = Zoo.find(named: Swift.String) -> Zoo.Animal?
func find(named name: String) -> Animal? { nil }

// = Zoo.feed(_: Zoo.Animal, with: Zoo.Meal) -> ()
func feed(_ animal: Animal, with meal: Meal) {}

// = Zoo.greet(Swift.String, Swift.String) -> ()
func greet(_ first: String, _ last: String) {}

struct Keeper {
    // = static Zoo.Keeper.count() -> Swift.Int
    static func count() -> Int { 0 }
}

class Bird: Animal {
    // = static Zoo.Bird.flock(of: Swift.Int) -> [Zoo.Bird]
    class func flock(of size: Int) -> [Bird] { [] }
}
