// A laboratory: the standard library's letters, and what the compiler makes beside the code.

// Section: The standard library's letters

// = Lab.measure(Swift.Int, Swift.UInt, Swift.Float, Swift.Double) -> Swift.Bool
func measure(_ a: Int, _ b: UInt, _ c: Float, _ d: Double) -> Bool { true }

// = Lab.write(Swift.Character, Swift.Substring, Swift.ObjectIdentifier) -> Swift.String
func write(_ a: Character, _ b: Substring, _ c: ObjectIdentifier) -> String { "" }

// = Lab.slice(Swift.Range<Swift.Int>, Swift.ClosedRange<Swift.Int>,
//   Swift.DefaultIndices<[Swift.Int]>) -> ()
func slice(_ a: Range<Int>, _ b: ClosedRange<Int>, _ c: DefaultIndices<[Int]>) {}

// = Lab.point(Swift.UnsafePointer<Swift.Int>, Swift.UnsafeMutablePointer<Swift.Int>) -> ()
func point(_ a: UnsafePointer<Int>, _ b: UnsafeMutablePointer<Int>) {}

// = Lab.fill(Swift.UnsafeBufferPointer<Swift.Int>,
//   Swift.UnsafeMutableBufferPointer<Swift.Int>) -> ()
func fill(_ a: UnsafeBufferPointer<Int>, _ b: UnsafeMutableBufferPointer<Int>) {}

// = Lab.copy(Swift.UnsafeRawPointer, Swift.UnsafeMutableRawPointer) -> ()
func copy(_ a: UnsafeRawPointer, _ b: UnsafeMutableRawPointer) {}

// = Lab.scan(Swift.UnsafeRawBufferPointer, Swift.UnsafeMutableRawBufferPointer) -> ()
func scan(_ a: UnsafeRawBufferPointer, _ b: UnsafeMutableRawBufferPointer) {}

// = Lab.add<A, B, C where A: Swift.Numeric, B: Swift.FloatingPoint,
//   C: Swift.BinaryFloatingPoint>(A, B, C) -> ()
func add<A: Numeric, B: FloatingPoint, C: BinaryFloatingPoint>(_ a: A, _ b: B, _ c: C) {}

// = Lab.shift<A, B, C where A: Swift.BinaryInteger, B: Swift.SignedInteger,
//   C: Swift.UnsignedInteger>(A, B, C) -> ()
func shift<A: BinaryInteger, B: SignedInteger, C: UnsignedInteger>(_ a: A, _ b: B, _ c: C) {}

// = Lab.walk<A, B, C where A: Swift.IteratorProtocol, B: Swift.BidirectionalCollection,
//   C: Swift.RandomAccessCollection>(A, B, C) -> ()
func walk<A: IteratorProtocol, B: BidirectionalCollection, C: RandomAccessCollection>(
    _ a: A, _ b: B, _ c: C) {}

// = Lab.sort<A, B where A: Swift.MutableCollection,
//   B: Swift.RangeReplaceableCollection>(A, B) -> ()
func sort<A: MutableCollection, B: RangeReplaceableCollection>(_ a: A, _ b: B) {}

// = Lab.step<A, B, C where A: Swift.Equatable, B: Swift.Strideable,
//   C: Swift.RangeExpression>(A, B, C) -> ()
func step<A: Equatable, B: Strideable, C: RangeExpression>(_ a: A, _ b: B, _ c: C) {}

// = Lab.load<A, B where A: Swift.Decodable, A: Swift.Encodable,
//   B: Swift.RawRepresentable>(A, B) -> ()
func load<A: Codable, B: RawRepresentable>(_ a: A, _ b: B) {}

// = Lab.draw<A, B where A: Swift.StringProtocol, B: Swift.RandomNumberGenerator>(A, B) -> ()
func draw<A: StringProtocol, B: RandomNumberGenerator>(_ a: A, _ b: B) {}

// ~ type metadata accessor for Swift.Optional
func kind<Sample>(of sample: Sample) -> Any.Type { Sample?.self }

// Section: Type metadata

class Device {}

// = type metadata for Lab.Probe
// = full type metadata for Lab.Probe
// = type metadata accessor for Lab.Probe
// = reflection metadata field descriptor Lab.Probe
struct Probe { var label: String }

// = reflection metadata builtin descriptor Lab.Result
enum Result { case number(Int), note(String), nothing }

// = generic type metadata pattern for Lab.Tube
// = type metadata instantiation function for Lab.Tube
// = type metadata instantiation cache for Lab.Tube
// = type metadata completion function for Lab.Tube
struct Tube<Liquid> { var liquid: Liquid }

// = type metadata singleton initialization cache for Lab.Report
struct Report { var subject: Mirror }

struct Rack<Item: ~Copyable>: ~Copyable {}

// = extension descriptor Lab.Rack
extension Rack { struct Slot {} }

// Section: Value witnesses

// = value witness table for Lab.Trial
// = initializeBufferWithCopyOfBuffer value witness for Lab.Trial
// = destroy value witness for Lab.Trial
// = initializeWithCopy value witness for Lab.Trial
// = assignWithCopy value witness for Lab.Trial
// = initializeWithTake value witness for Lab.Trial
// = assignWithTake value witness for Lab.Trial
// = getEnumTagSinglePayload value witness for Lab.Trial
// = storeEnumTagSinglePayload value witness for Lab.Trial
struct Trial { var name: String; weak var device: Device? }

// = getEnumTag value witness for Lab.Outcome
// = destructiveProjectEnumData value witness for Lab.Outcome
// = destructiveInjectEnumTag value witness for Lab.Outcome
enum Outcome { case passed(Int), failed(String) }

// Section: Thunks

func start(_ code: Int32) -> Int32 { code }

// ~ @objc Lab.start(Swift.Int32) -> Swift.Int32
var hook: @convention(c) (Int32) -> Int32 = start

// = dynamically replaceable key for Lab.mix() -> ()
dynamic func mix() {}

// = dynamically replaceable variable for Lab.mixAgain() -> ()
@_dynamicReplacement(for: mix()) func mixAgain() { mix() }
