// A farm: generic functions, generic types and their requirements.

// Section: Generic functions and types

// = Farm.keep<A>(A) -> A
func keep<Crop>(_ crop: Crop) -> Crop { crop }

// = Farm.rotate<A, B>(A, B) -> (B, A)
func rotate<First, Second>(_ one: First, _ two: Second) -> (Second, First) { (two, one) }

// = Farm.plow(Farm.Field<Swift.String>) -> ()
func plow(_ field: Field<String>) {}

struct Field<Crop> {
    // = Farm.Field.harvest() -> [A]
    func harvest() -> [Crop] { [] }

    // = Farm.Field.trade<A>(_: A, for: Farm.Field<A1>) -> ()
    func trade<Other>(_ crop: Crop, for other: Field<Other>) {}

    struct Fence<Wood> {
        // = Farm.Field.Fence.mend(_: A, with: A1) -> Farm.Field.Fence<A, A1>
        func mend(_ crop: Crop, with wood: Wood) -> Fence { self }
    }
}

// Section: Requirements

class Animal {}

protocol Eater {
    associatedtype Food
}

// = Farm.best<A where A: Swift.Comparable>(A, A) -> A
func best<Crop: Comparable>(_ one: Crop, _ other: Crop) -> Crop { one }

// = Farm.groom<A where A: Farm.Animal>(A) -> A
func groom<Kind: Animal>(_ animal: Kind) -> Kind { animal }

// = Farm.brand<A where A: Swift.AnyObject>(A) -> ()
func brand<Kind: AnyObject>(_ animal: Kind) {}

// = Farm.sort<A where A: Farm.Eater, A.Food: Swift.Comparable>(A) -> ()
func sort<Guest: Eater>(_ guest: Guest) where Guest.Food: Comparable {}

// = Farm.hunt<A where A: Farm.Eater, A.Food: Farm.Animal>(A) -> ()
func hunt<Guest: Eater>(_ guest: Guest) where Guest.Food: Animal {}

// = Farm.trace<A where A: Farm.Eater, A.Food: Swift.AnyObject>(A) -> ()
func trace<Guest: Eater>(_ guest: Guest) where Guest.Food: AnyObject {}

// = Farm.pour<A where A: Farm.Eater, A.Food == Swift.String>(A) -> ()
func pour<Guest: Eater>(_ guest: Guest) where Guest.Food == String {}

// = Farm.serve<A where A: Farm.Eater, A.Food: Swift.Hashable>(_: A.Food, to: A) -> ()
func serve<Guest: Eater>(_ food: Guest.Food, to guest: Guest) where Guest.Food: Hashable {}

// = Farm.chase<A where A: Farm.Eater, A.Food: Farm.Animal>(_: A.Food, by: A) -> ()
func chase<Guest: Eater>(_ food: Guest.Food, by guest: Guest) where Guest.Food: Animal {}

// = Farm.watch<A where A: Farm.Eater, A.Food: Swift.AnyObject>(_: A.Food, of: A) -> ()
func watch<Guest: Eater>(_ food: Guest.Food, of guest: Guest) where Guest.Food: AnyObject {}

// = Farm.swap<A, B where A: Farm.Eater, B: Farm.Eater, A.Food == B.Food>(A, B, A.Food) -> ()
func swap<A: Eater, B: Eater>(_ a: A, _ b: B, _ food: A.Food) where A.Food == B.Food {}

// = Farm.share<A, B where A: Farm.Eater, B: Farm.Eater, A.Food: Swift.Hashable, B.Food == B.Food>(A,
//   B) -> ()
func share<A: Eater, B: Eater>(_ a: A, _ b: B) where A.Food: Hashable, A.Food == B.Food {}

struct Sack<Content> {
    // = Farm.Sack.weigh<A where A == Swift.Int>() -> Swift.Int
    func weigh() -> Int where Content == Int { 0 }

    // = Farm.Sack.mix<A where A1: Swift.Hashable, A1: Swift.Sequence>(with: A1) -> ()
    func mix<Other: Sequence & Hashable>(with other: Other) {}
}
