// A shop: parameters, function types, errors and waiting, and the types that are built of others.

// Section: Parameters

// = Shop.exchange(inout Swift.Int, inout Swift.Int) -> ()
func exchange(_ one: inout Int, _ other: inout Int) {}

// = Shop.print(_: Swift.String, copies: Swift.Int) -> ()
func print(_ lines: String..., copies: Int = 1) {}

// Section: Function types

// = Shop.each((Swift.Int) -> ()) -> ()
func each(_ visit: (Int) -> Void) {}

// = Shop.later(() -> ()) -> ()
func later(_ work: @escaping () -> Void) {}

// = Shop.discount(percent: Swift.Int) -> (Swift.Int) -> Swift.Int
func discount(percent: Int) -> (Int) -> Int { { price in price } }

// = Shop.check(() -> Swift.Bool, () -> Swift.String) -> ()
func check(_ a: @autoclosure () -> Bool, _ b: @autoclosure @escaping () -> String) {}

// = Shop.hooks((Swift.Int) -> (), () -> (), () -> ()) -> ()
func hooks(
    _ c: @convention(c) (Int) -> Void, _ block: @convention(block) () -> Void,
    _ thin: @convention(thin) () -> Void) {}

// Section: throws and async

// = Shop.pay(Swift.Int) throws -> ()
func pay(_ amount: Int) throws {}

// = Shop.retry(() throws -> ()) throws -> ()
func retry(_ work: () throws -> Void) rethrows {}

// = Shop.deliver() async -> Swift.Bool
// = async function pointer to Shop.deliver() async -> Swift.Bool
func deliver() async -> Bool { true }

// = Shop.order(_: Swift.String, count: Swift.Int) async throws -> Swift.Int
func order(_ item: String, count: Int) async throws -> Int { 0 }

@MainActor func ring() {}

// = (1) suspend resume partial function for Shop.announce() async -> ()
func announce() async { await ring() }

// Section: Tuples, optionals, arrays and dictionaries

// = Shop.prices() -> (low: Swift.Int, high: Swift.Int)
func prices() -> (low: Int, high: Int) { (0, 0) }

// = Shop.wait(for: ()) -> ()
func wait(for nothing: Void) {}

// = Shop.find(Swift.String) -> Swift.Int?
func find(_ item: String) -> Int? { nil }

// = Shop.shelves() -> [[Swift.String]]
func shelves() -> [[String]] { [] }

// = Shop.stock() -> [Swift.String : (Swift.Int, Swift.Double)]
func stock() -> [String: (Int, Double)] { [:] }

// = Shop.brands() -> Swift.Set<Swift.String>
func brands() -> Set<String> { [] }

// = Shop.bell() -> () -> ()?
func bell() -> (() -> Void)? { nil }

// Section: Existentials and metatypes

protocol Priced {}

// = Shop.label(Shop.Priced) -> ()
func label(_ item: any Priced) {}

// = Shop.sort([Shop.Priced & Swift.Hashable]) -> ()
func sort(_ items: [any Hashable & Priced]) {}

// = Shop.wrap(Any) -> ()
func wrap(_ anything: Any) {}

// = Shop.owner : Swift.AnyObject?
var owner: AnyObject?

// = Shop.parse(as: Swift.Int.Type) -> Swift.Int
func parse(as type: Int.Type) -> Int { 0 }

// = Shop.catalog() -> [Shop.Priced.Type]
func catalog() -> [any Priced.Type] { [] }

// = Shop.print(Shop.Priced.Type) -> ()
func print(_ form: (any Priced).Type) {}
