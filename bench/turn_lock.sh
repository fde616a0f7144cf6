#!/bin/sh
# What a turn costs. 1 to 200 threads share turns of a TurnLock and of a std Mutex round the same value: nanoseconds a turn on the
# wall and of processor time, the best of three rounds. Then one thread holds its turn for a second while 16 wait: the processor time
# tells whether those sleep.
# Usage: bench/turn_lock.sh
. "$(dirname "$0")/scaffold.sh"
needs rt
take ms_base turn_lock
caller turn_lock 'lock_bench may_wait=20 may_abort=20: turn_lock ms_base anyhow'
cd "$work/crates/lock_bench"
rt run
