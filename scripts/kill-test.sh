#!/bin/sh
# Kills the running program at random moments and starts it again, a hundred times: no reply line that came out before
# a kill may be missing in the log. Not a part of the gate. It needs python3 and the built program:
#     sample/run.sh && scripts/kill-test.sh [PROGRAM [TIMES]]
# A killed program loses nothing that it wrote to files, synced or not: this tries restarts, not the storage.
set -e
cd "$(dirname "$0")/.."
program=${1:-crates/ims_fp/out/ims_fp}
if [ ! -x "$program" ] || ! command -v python3 >/dev/null; then
    echo "kill-test: skipped: it needs python3 and $program"
    exit 0
fi
room=$(mktemp -d)
trap 'rm -rf "$room"' EXIT
cp crates/ims_fp/data/defs.toml crates/ims_fp/data/scripts.txt crates/ims_fp/data/schedule.txt "$room"
python3 scripts/kill_test.py "$program" "$room" "${2:-100}"
