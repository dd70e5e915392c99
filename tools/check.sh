#!/bin/sh
# What the gate can't see. `sh tools/check.sh --pages`: the calls by number, the crates' rows and drawing, the declarations, the records and the pages,
# which need nothing built and are only read; `--write`: each script writes what it can, and names what is left by hand. Without either the bindings too,
# over the archive of SHUPKELEN_LIB, else a new one.
cd "$(dirname "$0")/.." || exit 1
status=0
for script in calls house header records cited audit; do
    python3 tools/$script.py $([ "$1" = --write ] && echo --write) || status=1
done
[ $status = 0 ] || exit 1
[ "$1" ] || sh bindings/test.sh
