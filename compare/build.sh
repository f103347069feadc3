# How the programs of this folder are built; sourced by the commands in this folder. All results go
# to target/compare.
#
# RUST_SOURCE   the Rust source to compare with, unchanged and never committed
# LIBCAPI       a folder with both archives of our calls; without it, those that `rt lib` writes in
#               crates/capi and crates/capi_check are taken from the out/ there
# ORACLE        an instrumented copy of the Rust other than the one that instrument.py makes, built
#               as a library; or `none`: without one
root=$(cd "$here/.." && pwd)
out=$root/target/compare
RUST_SOURCE=${RUST_SOURCE:-$root/../shared/docs/src/crates/ag-engine/src/swift_demangle.rs}
mkdir -p "$out"
link=()
archives=()

fail() {
    echo "$*" >&2
    exit 2
}

command -v rustc >/dev/null || fail "no rustc: the Rust source and the programs of compare/src are built with it"

# library NAME SOURCE: builds a Rust source as a separate library.
library() {
    rustc --edition 2021 -C opt-level=3 --crate-type rlib --crate-name "$1" --cap-lints allow "$2" -o "$out/lib$1.rlib"
}

source_is_there() {
    [ -f "$RUST_SOURCE" ] || fail "no $RUST_SOURCE: set RUST_SOURCE to the path of swift_demangle.rs"
}

# The Rust source, unchanged.
reference() {
    source_is_there
    library swift_demangle "$RUST_SOURCE"
    link+=(--extern "swift_demangle=$out/libswift_demangle.rlib")
}

# Our calls.
capi() {
    local name folder
    for name in capi capi_check; do
        folder=${LIBCAPI:-$root/crates/$name/out}
        [ -f "$folder/lib$name.a" ] || fail "no $folder/lib$name.a: run 'rt lib' in crates/$name first, or set LIBCAPI"
        archives+=("$(cd "$folder" && pwd)/lib$name.a")
        link+=(-C "link-arg=${archives[-1]}")
    done
}

# The instrumented copy of the Rust source.
instrumented() {
    source_is_there
    command -v python3 >/dev/null || fail "no python3: the instrumented copy is made with it; ORACLE=none does without the copy"
    python3 "$here/instrument.py" "$RUST_SOURCE" "$here/src/instrumented.rs" "$out/instrumented.rs"
    library instrumented "$out/instrumented.rs"
}

# The instrumented copy, or the given one, or none.
oracle() {
    if [ "${ORACLE:-}" = none ]; then
        return
    fi
    if [ -z "${ORACLE:-}" ]; then
        instrumented
        ORACLE=$out/libinstrumented.rlib
    fi
    [ -f "$ORACLE" ] || fail "no $ORACLE: ORACLE is the path of an instrumented copy built as a library, or none"
    link+=(--cfg oracle --extern "instrumented=$ORACLE")
}

# The same, if the answers can come from nowhere else.
oracle_needed() {
    [ "${ORACLE:-}" != none ] || fail "the answers are those of the instrumented copy, which ORACLE=none leaves out"
    oracle
}

# program NAME: builds src/NAME.rs.
program() {
    rustc --edition 2021 -C opt-level=3 -A dead_code -A unexpected_cfgs "$here/src/$1.rs" "${link[@]}" -o "$out/$1"
}
