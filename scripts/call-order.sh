#!/bin/sh
# Traces the built program's calls of the system while it makes a log, serves messages and restarts, and looks at their
# order: what is locked, synced and read before what. Not a part of the gate. It needs python3, strace and the built
# program:
#     sample/run.sh && scripts/call-order.sh [PROGRAM]
set -e
cd "$(dirname "$0")/.."
program=${1:-crates/ims_fp/out/ims_fp}
if [ ! -x "$program" ] || ! command -v python3 >/dev/null || ! command -v strace >/dev/null; then
    echo "call-order: skipped: it needs python3, strace and $program"
    exit 0
fi
room=$(mktemp -d)
trap 'rm -rf "$room"' EXIT
cp crates/ims_fp/data/defs.toml crates/ims_fp/data/scripts.txt crates/ims_fp/data/schedule.txt "$room"
python3 scripts/call_order.py "$program" "$room"
