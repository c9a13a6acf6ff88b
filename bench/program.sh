# Read by the scripts of this folder: proves and builds docdb where it isn't built, and sets `program` to its path.
program=$(cd "$here/.." && pwd)/crates/docdb/out/docdb
made=$(mktemp -d) || exit 1
"$here/../docdb" init "$made/d" >/dev/null
status=$?
rm -rf "$made"
[ "$status" = 0 ] || exit 1
