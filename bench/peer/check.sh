#!/bin/sh
# check.sh FORMULA PROOF      what ACL2's checker says of a DIMACS formula and a proof in compressed LRAT; its last line is
# `s VERIFIED` or `s FAILED`. Without words the image starts and ends.
bin=$(CDPATH= cd -- "$(dirname -- "$0")/../bin" && pwd)
case $# in
    0) echo '(exit 0)' ;;
    *) echo "(lrat::lrat-check \"$1\" \"$2\")" ;;
esac | "$bin/acl2-lrat"
