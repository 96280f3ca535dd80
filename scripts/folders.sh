#!/bin/sh
# Folders that are absent, foreign, damaged, cut off, locked or not to be written: what each command says of them, and
# its status. Not a part of the gate. It needs python3 and the built program:
#     sample/run.sh && scripts/folders.sh [PROGRAM]
set -e
cd "$(dirname "$0")/.."
program=${1:-crates/ims_fp/out/ims_fp}
if [ ! -x "$program" ] || ! command -v python3 >/dev/null; then
    echo "folders: skipped: it needs python3 and $program"
    exit 0
fi
room=$(mktemp -d)
trap 'chmod -R u+w "$room"; rm -rf "$room"' EXIT
python3 scripts/folders.py "$program" crates/ims_fp/data "$room"
