#!/bin/sh
# Shows that media goes through a worker: ffmpeg sends a stream of opus and one of VP8 to `mediahub worker`, which examples/forward.py
# drives; another ffmpeg receives what is forwarded and decodes it. The receiver has to decode as many frames as were sent, but
# for those of the first second.
# It looks at a clock, so it is no part of the gate.
# Usage: checks/ffmpeg.sh [PROGRAM]. Without PROGRAM it builds the one of this repository where need be. It is skipped where
# ffmpeg, python3 or, for building, the kit's rt is missing.
top=$(cd "$(dirname "$0")/.." && pwd) || exit 1
for tool in ffmpeg python3; do
    command -v $tool >/dev/null || { echo "ffmpeg: skipped, since $tool is missing"; exit 0; }
done
program=$1
if [ -z "$program" ]; then
    command -v rt >/dev/null || { echo "ffmpeg: skipped, since rt is missing"; exit 0; }
    # With no words the program reads nothing and ends with status 2.
    "$top/mediahub" </dev/null
    [ $? = 2 ] || { echo "ffmpeg: the program could not be built"; exit 1; }
    program=$top/crates/mediahub/out/mediahub
fi
exec python3 "$top/checks/ffmpeg_streams.py" "$program" "$top/examples/forward.py"
