#!/bin/sh
# Prints how many commits per second docdb answers to one client over real files, beside a loop in C that writes and
# syncs the same bytes by the same calls in the same file system, in one run. The program is proved and built first
# where it isn't. Takes the number of commits (2,000 where none is given) and the folder to work in (else a new one
# under TMPDIR).
here=$(cd "$(dirname "$0")" && pwd) || exit 1
. "$here/program.sh"
work=$(mktemp -d -p "${2:-${TMPDIR:-/tmp}}") || exit 1
cc -O2 -o "$work/commits" "$here/commits.c" && python3 "$here/commits.py" "$program" "$work" "${1:-2000}"
status=$?
rm -rf "$work"
exit "$status"
