#!/bin/sh
# Runs the small sample's messages with no proof, in a minute or two, and prints the replies. It begins with the log that
# `define` makes, since what is only tried keeps no files.
set -e
say() { echo "sample: $*" >&2; }
if ! command -v rt >/dev/null; then
    say "there is no command rt. It is in the folder bin of the Rattle kit: put that folder into PATH."
    exit 1
fi
cd "$(dirname "$0")/../crates/ims_fp"
say "NOT PROVED: this builds the program and runs it with no proof, in a minute or two. sample/run.sh proves it first."
status=0
rt try --data defs.toml=data/defs.toml --data scripts.txt=data/scripts.txt --data schedule.txt=data/schedule.txt \
    --data messages.txt=data/messages.txt --data log=data/log -- run . || status=$?
say "NOT PROVED: what ran above was built with no proof."
exit "$status"
