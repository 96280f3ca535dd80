#!/bin/sh
# Kills the running program at random moments and sends the same numbered messages again until all are answered, a
# hundred rounds: each deposit counts once. Not a part of the gate. It needs python3 and the built program:
#     sample/run.sh && scripts/send-again.sh [PROGRAM [TIMES]]
set -e
cd "$(dirname "$0")/.."
program=${1:-crates/ims_fp/out/ims_fp}
if [ ! -x "$program" ] || ! command -v python3 >/dev/null; then
    echo "send-again: skipped: it needs python3 and $program"
    exit 0
fi
room=$(mktemp -d)
trap 'rm -rf "$room"' EXIT
cp crates/ims_fp/data/defs.toml crates/ims_fp/data/scripts.txt crates/ims_fp/data/schedule.txt "$room"
python3 scripts/send_again.py "$program" "$room" "${2:-100}"
