#!/bin/sh
# Prints how many puts per second docdb serves where 10,000, 100,000 and 1,000,000 are put in one run, each document
# at a URI of its own, in a file system in memory where there is one. The program is proved and built first where it
# isn't. Takes the greatest number of puts (1,000,000 where none is given).
here=$(cd "$(dirname "$0")" && pwd) || exit 1
. "$here/program.sh"
exec python3 "$here/puts.py" "$program" "${1:-1000000}"
