#!/bin/sh
# solve.sh FORMULA PROOF: solves a formula by CaDiCaL and writes the proof as LRAT. The status is
# 20 if the formula has no model and the proof is there. From version 2 on the proof is binary
# LRAT. A binary proof of 1.7 has other ids, so there it is text. A CaDiCaL without `--lrat`, as
# that of Debian 12, writes DRAT, and `drat2lrat` turns it into LRAT: the environment's DRAT2LRAT
# is its path, and without it `drat2lrat` of the PATH is called. SECONDS_A_LEAF, if it is set, ends
# the solver after so many seconds, and the leaf stays open. For another solver write such a file
# of your own.
set -- "$1" "$2" ${SECONDS_A_LEAF:+-t "$SECONDS_A_LEAF"}
formula=$1
proof=$2
shift 2
if cadical --help 2> /dev/null | grep -q -e '--lrat'; then
    case $(cadical --version 2> /dev/null) in
        [2-9].* | [1-9][0-9]*.*) ;;
        *) set -- "$@" --no-binary ;;
    esac
    exec cadical -q "$@" --lrat "$formula" "$proof"
fi
cadical -q "$@" "$formula" "$formula.drat"
status=$?
[ "$status" -ne 20 ] || "${DRAT2LRAT:-drat2lrat}" make "$formula" "$proof" "$formula.drat" --trim || exit
exit "$status"
