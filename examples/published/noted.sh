#!/bin/sh
# noted.sh FORMULA PROOF: solves a leaf by the script whose path is in SOLVER, and adds a line to
# the file NOTES: how many bytes the proof has, if there is one. PROOF may be a named pipe: the
# bytes are counted on their way.
mkfifo through || exit
tee "$2" < through | wc -c > bytes &
# (held open, so that the count ends if the solver writes nothing)
exec 3> through
sh "$SOLVER" "$1" through 3>&-
status=$?
exec 3>&-
wait
[ "$status" -ne 20 ] || cat bytes >> "$NOTES"
exit "$status"
