#!/bin/sh
# Kills docdb at random moments while a client puts, opens the directory again after each, and counts puts that were
# acknowledged and are missing, and entries that weren't acknowledged. A kill loses nothing that the system was given,
# so this shows the order of calls, the lock and the opening, and nothing about a loss of power. The program is proved
# and built first where it isn't. Takes the number of kills (300 where none is given).
here=$(cd "$(dirname "$0")" && pwd) || exit 1
. "$here/program.sh"
exec python3 "$here/crash.py" "$program" "${1:-300}"
