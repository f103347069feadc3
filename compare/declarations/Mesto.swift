// A town (in Czech: město): names in Czech and Greek letters. The Rust prints them as the compiler
// encodes them.

// Section: Names in Czech and Greek letters

struct Náměstí {
    // = Mesto.Nmst_FnaJeIp.kana_hGa.getter : Swift.Bool
    var kašna: Bool
}

// = Mesto.pejdi_icb(pes_Dya: Swift.Int) -> Swift.Bool
func přejdi(přes most: Int) -> Bool { true }

// = Mesto.Bxa : Swift.Double
var π = 3.14

// = Mesto.EwaAclBe.__allocating_init() -> Mesto.EwaAclBe
class Πόλη {
    // = Mesto.EwaAclBe.jxayeop(mxaEaxb: Mesto.EwaAclBe) -> Swift.Int
    func μήκος(από άλλη: Πόλη) -> Int { 0 }
}

struct Řeka {
    // = nominal type descriptor for Mesto.eka_yya.EwaIaHakrjCd
    enum Ποταμός { case Vltava, Αχελώος }
}
