#!/bin/sh
# What `mediahub replay` costs over journals of several shapes, each at one length and at a tenth of it: processor time (the least of
# some runs), bytes a second, peak memory, also as a multiple of the text, and beside them the time of `wc -l` over the same bytes. The
# last column is the long journal's time over the short one's: 10 means in proportion. A second table has what one more object, pending
# request or await takes, with its entries and notes: from the peaks of 10,000 and 60,000 of them.
# Usage: bench/replay.sh [SCALE [RUNS [LIMIT]]]. SCALE multiplies the lengths: 1, the default, is 100 MB of chunks or 200,000 calls,
# and more than 2 is more than a journal may have. RUNS is 3 by default. A run that takes more than LIMIT seconds, 300 by default, is
# ended.
# It needs python3 and GNU time as /usr/bin/time, and some 400 MB in the temporary directory at SCALE 1.
. "$(dirname "$0")/scaffold.sh"
needs python3 /usr/bin/time
# With no words the program reads nothing and ends with status 2.
"$top/mediahub" </dev/null || [ $? = 2 ] || exit 1
python3 "$bench/replay/main.py" "$top/crates/mediahub/out/mediahub" "$work" "${1:-1}" "${2:-3}" "${3:-300}"
