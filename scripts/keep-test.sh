#!/bin/sh
# Keeps a folder as GUIDE says, and tries that it holds: a copy that is put back, a folder that is moved, a disk that gets
# full. Not a part of the gate. It needs python3 and the built program:
#     sample/run.sh && scripts/keep-test.sh [PROGRAM]
# For the full disk it makes a small one in memory, in a name space of its own where it isn't root; where the system
# forbids that, this part is skipped, and it says so.
set -e
cd "$(dirname "$0")/.."
program=${1:-crates/ims_fp/out/ims_fp}
if [ ! -x "$program" ] || ! command -v python3 >/dev/null; then
    echo "keep-test: skipped: it needs python3 and $program"
    exit 0
fi
room=$(mktemp -d)
trap 'rm -rf "$room"' EXIT
python3 scripts/keep_test.py copies "$program" crates/ims_fp/data "$room"
# The disk is gone with the shell that mounted it.
on_a_small_disk='mount -t tmpfs -o size=64k none "$4/disk" && exec python3 scripts/keep_test.py "$@"'
mkdir "$room/disk"
if unshare -rm sh -c 'mount -t tmpfs none "$1"' - "$room/disk" 2>/dev/null; then
    unshare -rm sh -c "$on_a_small_disk" - full "$program" crates/ims_fp/data "$room"
else
    echo "keep-test: skipped: a full disk: the system lets nobody mount one here"
fi
