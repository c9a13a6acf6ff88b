#!/bin/sh
# Prints megabytes per second of reading and writing JSON: json_text beside serde_json of the kit, the parser of
# Python's library and, where they are there, orjson and node. All run on the same documents, one after the other.
# The program's text lies beside this script as json_bench.rt.txt, so that the gate doesn't take it for a crate's.
# Takes an empty folder to work in (else a new one under TMPDIR); what was built there before is used again.
here=$(cd "$(dirname "$0")" && pwd) || exit 1
work=${1:-$(mktemp -d)} || exit 1
mkdir -p "$work/crates" || exit 1

build() {
    cp "$here/../HANDLES" "$work/"
    for crate in doc_model json_text; do
        [ -d "$work/crates/$crate" ] || cp -r "$here/../crates/$crate" "$work/crates/"
    done
    mkdir -p "$work/crates/json_bench/src"
    cp "$here/json_bench.rt.txt" "$work/crates/json_bench/src/main.rt"
    {
        echo "doc_model: sqlite_items"
        echo "json_text: doc_model sqlite_items itoa"
        echo "json_bench: json_text doc_model serde_json sqlite_items"
    } >"$work/crates.txt"
    (cd "$work/crates/json_bench" && rt run --jobs 2 >"$work/build.log" 2>&1)
    [ -x "$work/crates/json_bench/out/json_bench" ] || { tail "$work/build.log" >&2; exit 1; }
}

[ -x "$work/crates/json_bench/out/json_bench" ] || build
exec python3 "$here/compare.py" "$work/crates/json_bench/out/json_bench" "$work"
