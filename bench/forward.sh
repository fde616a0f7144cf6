#!/bin/sh
# How many packets a second `mediahub worker` forwards, beside a plain forwarder in C with one thread and one call of the system
# for each datagram: one sender of opus over 127.0.0.1, to 1, 10 and 50 receivers, payloads of 160 and 1,200 bytes. It prints for
# each the highest rate of packets in at which less than 0.1 % of the copies were lost, the processor time of the forwarder for a
# copy at that rate, and the delay from sender to receiver at a tenth of the lower of the two rates. The receivers look at each
# copy's payload type, SSRC and number.
# Usage: bench/forward.sh [MILLISECONDS [REPEATS]]. A rate is tried for MILLISECONDS, 1,000 by default; the two take turns REPEATS
# times, 3 by default, and the best of each counts. MEDIAHUB names a program that is built elsewhere; without it the one of this
# repository is built where need be. It takes some minutes and, while it runs, four processors.
. "$(dirname "$0")/scaffold.sh"
needs cc python3
program=${MEDIAHUB:-$top/crates/mediahub/out/mediahub}
if [ -z "${MEDIAHUB:-}" ]; then
    # With no words the program reads nothing and ends with status 2.
    status=0
    "$top/mediahub" </dev/null || status=$?
    [ "$status" = 2 ] || { echo "forward.sh: the program could not be built" >&2; exit 1; }
fi
cc -O2 -march=x86-64-v2 -o "$work/packets" "$bench/forward/packets.c"
python3 "$bench/forward/main.py" "$work/packets" "$program" "${1:-1000}" "${2:-3}"
