#!/bin/sh
# Has each call of the system that an init, an opening and two puts make fail in turn, and looks at the reply, the
# status, what is printed on standard error, and that the directory can be served again. Then it interrupts each call
# that a signal can interrupt, and looks that nothing changes. It prints how many calls of each name it tried, and which
# names no run makes. It takes strace, and does nothing where there is none. The program is proved and built first where
# it isn't.
here=$(cd "$(dirname "$0")" && pwd) || exit 1
command -v strace >/dev/null || { echo "strace isn't installed: nothing was tried"; exit 0; }
. "$here/program.sh"
exec python3 "$here/faults.py" "$program"
