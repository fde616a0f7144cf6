"""Sends streams of ffmpeg's through a worker and counts the frames that arrive; see ffmpeg.sh, which starts this.

Usage: ffmpeg_streams.py PROGRAM FORWARD
"""
import os
import re
import subprocess
import sys
import tempfile
import time

PROGRAM, FORWARD = sys.argv[1], sys.argv[2]
SECONDS = 6
# For each codec: the port of the receiver, what is sent, the lines of its description, and how many frames a second has.
STREAMS = {
    "opus": (46000, ["-f", "lavfi", "-i", "sine=frequency=440:sample_rate=48000", "-ac", "2", "-c:a", "libopus"],
             "m=audio 46000 RTP/AVP 100\na=rtpmap:100 opus/48000/2\n", 50),
    "vp8": (46002, ["-f", "lavfi", "-i", "testsrc=size=320x240:rate=25", "-c:v", "libvpx", "-deadline", "realtime", "-g", "25"],
            "m=video 46002 RTP/AVP 101\na=rtpmap:101 VP8/90000\n", 25),
}


def run(codec):
    port, sends, lines, rate = STREAMS[codec]
    forward = subprocess.Popen([sys.executable, FORWARD, codec, "127.0.0.1", str(port)], stdin=subprocess.PIPE,
                               stdout=subprocess.PIPE, text=True, env={**os.environ, "MEDIAHUB": PROGRAM})
    source = int(forward.stdout.readline())
    with tempfile.NamedTemporaryFile("w", suffix=".sdp", delete=False) as described:
        described.write("v=0\no=- 0 0 IN IP4 127.0.0.1\ns=forwarded\nc=IN IP4 127.0.0.1\nt=0 0\n" + lines)
    receiver = subprocess.Popen(["ffmpeg", "-hide_banner", "-protocol_whitelist", "file,udp,rtp", "-i", described.name,
                                 "-t", str(SECONDS - 2), "-f", "null", "-"], stderr=subprocess.PIPE, text=True)
    time.sleep(1)
    subprocess.run(["ffmpeg", "-hide_banner", "-loglevel", "error", "-re", "-t", str(SECONDS + 4), *sends, "-payload_type", "96",
                    "-ssrc", "2222", "-f", "rtp", "rtp://127.0.0.1:%d" % source], stdout=subprocess.DEVNULL, check=True)
    try:
        _, told = receiver.communicate(timeout=10)
    except subprocess.TimeoutExpired:
        receiver.kill()
        _, told = receiver.communicate()
    forward.stdin.close()
    status = forward.wait(10)
    os.unlink(described.name)
    if codec == "vp8":
        frames = max([int(found) for found in re.findall(r"frame=\s*(\d+)", told)], default=0)
    else:
        times = re.findall(r"time=(\d+):(\d+):([\d.]+)", told)
        frames = round(max([int(h) * 3600 + int(m) * 60 + float(s) for h, m, s in times], default=0) * rate)
    wanted = (SECONDS - 3) * rate
    print("ffmpeg: %s: %d frames decoded, at least %d wanted, status of the worker %d" % (codec, frames, wanted, status))
    return frames >= wanted and status == 0


sys.exit(0 if all([run(codec) for codec in STREAMS]) else 1)
