#!/bin/sh
# Runs the program of this file's name out of the folder lib/ beside it, in the caller's folder. A large list is then asked for in huge pages, where the
# C library (glibc 2.35 or later) and the system can give them, unless the caller says something else of memory.
here=$(readlink -f -- "$0") && folder=$(dirname -- "$here") && name=$(basename -- "$here") || exit 70
GLIBC_TUNABLES=${GLIBC_TUNABLES-glibc.malloc.hugetlb=1}
export GLIBC_TUNABLES
exec "$folder/lib/$name" "$@"
