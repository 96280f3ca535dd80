#!/bin/sh
# Starts two programs on one folder at once, a hundred times: each line that came out must be in the log, and the one
# that finds the folder in use must say so and change nothing. Not a part of the gate. It needs python3 and the built
# program:
#     sample/run.sh && scripts/two-programs.sh [PROGRAM [TIMES]]
set -e
cd "$(dirname "$0")/.."
program=${1:-crates/ims_fp/out/ims_fp}
if [ ! -x "$program" ] || ! command -v python3 >/dev/null; then
    echo "two-programs: skipped: it needs python3 and $program"
    exit 0
fi
room=$(mktemp -d)
trap 'rm -rf "$room"' EXIT
cp crates/ims_fp/data/defs.toml crates/ims_fp/data/scripts.txt crates/ims_fp/data/schedule.txt "$room"
python3 scripts/two_programs.py "$program" "$room" "${2:-100}"
