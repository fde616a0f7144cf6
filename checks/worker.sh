#!/bin/sh
# Shows that the built program serves as a worker over real pipes: it answers the requests and packets of the stored
# run of crates/worker_play as that run says, however the bytes are cut, and answers before its input ends; it ends
# by itself where the pipe is closed or its parent is killed, and with its own status where standard input or output
# is at fault; and while nothing comes it takes no time of a processor.
# It looks at a clock, so it is no part of the gate.
# Usage: checks/worker.sh [PROGRAM]. Without PROGRAM it builds the one of this repository where need be. It is skipped
# where python3 or, for building, the kit's rt is missing.
top=$(cd "$(dirname "$0")/.." && pwd) || exit 1
command -v python3 >/dev/null || { echo "worker: skipped, since python3 is missing"; exit 0; }
program=$1
if [ -z "$program" ]; then
    command -v rt >/dev/null || { echo "worker: skipped, since rt is missing"; exit 0; }
    # With no words the program reads nothing and ends with status 2.
    "$top/mediahub" </dev/null
    [ $? = 2 ] || { echo "worker: the program could not be built"; exit 1; }
    program=$top/crates/mediahub/out/mediahub
fi
exec python3 "$top/checks/worker_pipes.py" "$program" "$top/crates/worker_play"
