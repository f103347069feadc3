// A bank: properties with their accessors, initializers, deinit.

// Section: Properties and accessors

// = Bank.vault : Swift.Int
var vault = 0

public class Account {
    // = Bank.Account.balance.getter : Swift.Int
    // = Bank.Account.balance.setter : Swift.Int
    // = Bank.Account.balance.modify : Swift.Int
    // = Bank.Account.balance.modify : Swift.Int with unmangled suffix ".resume.0"
    // = variable initialization expression of Bank.Account.balance : Swift.Int
    // = property descriptor for Bank.Account.balance : Swift.Int
    // = direct field offset for Bank.Account.balance : Swift.Int
    // = method descriptor for Bank.Account.balance.getter : Swift.Int
    public var balance = 0

    // = Bank.Account.limit.willset : Swift.Int
    // = Bank.Account.limit.didset : Swift.Int
    var limit = 9 { willSet { vault = newValue } didSet { vault = oldValue } }

    // = Bank.Account.history.read : [Swift.Int]
    var history: [Int] { _read { yield [] } }

    // = static Bank.Account.rate.getter : Swift.Double
    static var rate = 1.5
}

// Section: Initializers and deinit

// = Bank.Money.init(amount: Swift.Int, currency: Swift.String) -> Bank.Money
struct Money { var amount: Int; var currency: String }

class Customer {
    // = Bank.Customer.__allocating_init(name: Swift.String) -> Bank.Customer
    // = Bank.Customer.init(name: Swift.String) -> Bank.Customer
    init(name: String) {}

    // = Bank.Customer.__allocating_init(number: Swift.Int) -> Bank.Customer?
    init?(number: Int) { nil }

    // = Bank.Customer.init(form: [Swift.String]) throws -> Bank.Customer
    init(form: [String]) throws {}

    // = Bank.Customer.deinit
    // = Bank.Customer.__deallocating_deinit
    deinit { vault = 0 }
}

// = ivar destroyer for Bank.Member
class Member: Customer { var cards = ["gold"] }
