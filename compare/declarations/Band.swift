// A band: protocols, associated types, conformances and their witnesses.

// Section: Protocols and associated types

// = Band.Player
// = protocol requirements base descriptor for Band.Player
protocol Player {
    // = associated type descriptor for Band.Player.Note
    // = associated conformance descriptor for Band.Player.Band.Player.Note: Swift.Hashable
    associatedtype Note: Hashable

    var name: String { get set }

    func play(_ note: Note) -> Bool

    init(name: String)
}

// Section: Conformances and witnesses

// = protocol conformance descriptor for Band.Flute : Band.Player in Band
// = protocol witness table for Band.Flute : Band.Player in Band
// = protocol witness for Band.Player.init(name: Swift.String) -> A in conformance
//   Band.Flute : Band.Player in Band
struct Flute: Player {
    // = protocol witness for Band.Player.name.setter : Swift.String in conformance
    //   Band.Flute : Band.Player in Band
    var name: String

    // = protocol witness for Band.Player.play(A.Note) -> Swift.Bool in conformance
    //   Band.Flute : Band.Player in Band
    func play(_ note: Int) -> Bool { true }
}

// = metadata instantiation cache for protocol conformance descriptor for
//   Band.Choir<A> : Band.Player in Band
// = protocol witness table pattern for Band.Choir<A> : Band.Player in Band
struct Choir<Voice: Hashable>: Player {
    var name: String

    func play(_ note: Voice) -> Bool { true }
}

func perform<Someone: Player>(_ player: Someone) {}

// ~ lazy protocol witness table accessor for type Band.Choir<Swift.Int> and conformance
//   Band.Choir<A> : Band.Player in Band
// ~ lazy protocol witness table cache variable for type Band.Choir<Swift.Int> and conformance
//   Band.Choir<A> : Band.Player in Band
func rehearse() { perform(Choir<Int>(name: "alto")) }

// Section: Thunks

// ~ dispatch thunk of Swift.Collection.count.getter : Swift.Int
func size<Group: Collection>(_ group: Group) -> Int { group.count }
