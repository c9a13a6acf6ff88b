#!/bin/sh
# Prints how long docdb takes for a search of one word where 1,000, 10,000 and 100,000 documents of 40 words are live,
# in one run and in a file system in memory where there is one. The program is proved and built first where it isn't.
# Takes the greatest number of documents (100,000 where none is given).
here=$(cd "$(dirname "$0")" && pwd) || exit 1
. "$here/program.sh"
exec python3 "$here/searches.py" "$program" "${1:-100000}"
