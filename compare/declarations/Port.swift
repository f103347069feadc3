// A port, where things come in from C: SwiftShims is a C module that Swift brings with it.

import SwiftShims

// Section: Names from C

// = Port.unload(__C._SwiftArrayBodyStorage) -> ()
func unload(_ storage: _SwiftArrayBodyStorage) {}

// = Port.admit(__C._SwiftStdlibVersion) -> ()
func admit(_ version: _SwiftStdlibVersion) {}

// ~ lazy cache variable for type metadata for __C._SwiftStdlibVersion
struct Release { var version: _SwiftStdlibVersion }

// ~ @nonobjc __C._swift_stdlib_free(Swift.UnsafeMutableRawPointer?) -> ()
var free: (UnsafeMutableRawPointer?) -> Void = _swift_stdlib_free
