#!/usr/bin/env python3
"""Forwards one RTP stream from a port to an address through `mediahub worker`, which it drives over its channel.

Usage: forward.py CODEC IP PORT [PORT..], with CODEC `opus` or `vp8`. It prints the port to send to, then serves until its
standard input ends. The stream comes with payload type 96 and the SSRC 2222; each receiver gets it with payload type 100
(opus) or 101 (vp8), under an SSRC of its own, 100000001 for the first. A video receiver gets nothing before a key frame.

    examples/forward.py opus 127.0.0.1 6000
"""
import json
import os
import subprocess
import sys

CODECS = {
    "opus": {"kind": "audio", "mimeType": "audio/opus", "clockRate": 48000, "channels": 2, "type": 100},
    "vp8": {"kind": "video", "mimeType": "video/VP8", "clockRate": 90000, "type": 101},
}
PROGRAM = os.path.join(os.path.dirname(os.path.abspath(__file__)), "..", "mediahub")


def object_id(number):
    return "00000000-0000-4000-8000-%012d" % number


class Worker:
    """A worker process, asked over its standard streams."""

    def __init__(self, program):
        self.process = subprocess.Popen([program, "worker"], stdin=subprocess.PIPE, stdout=subprocess.PIPE)
        self.last = 0

    def read(self):
        head = self.process.stdout.read(4)
        if len(head) < 4:
            sys.exit("forward: the worker ended")
        return json.loads(self.process.stdout.read(int.from_bytes(head, "little")))

    def ask(self, method, data=None, **ids):
        """Sends a request and gives the data of its reply. Notices before it are passed over."""
        self.last += 1
        request = {"id": self.last, "method": method,
                   "internal": {name + "Id": object_id(number) for name, number in ids.items()}}
        if data is not None:
            request["data"] = data
        payload = json.dumps(request).encode()
        self.process.stdin.write(len(payload).to_bytes(4, "little") + payload)
        self.process.stdin.flush()
        while True:
            answer = self.read()
            if answer.get("id") != self.last:
                continue
            if not answer.get("accepted"):
                sys.exit("forward: %s was refused: %s" % (method, answer))
            return answer.get("data")


def parameters(codec, payload_type, ssrc):
    found = {name: codec[name] for name in ("mimeType", "clockRate", "channels") if name in codec}
    return {"codecs": [{**found, "payloadType": payload_type}], "encodings": [{"ssrc": ssrc}]}


def forward(program, codec, ip, ports):
    """Makes the worker's objects and gives it with the port to send to."""
    worker = Worker(program)
    worker.ask("worker.createRouter", router=1)
    plain = {"comedia": True, "listenIp": {"ip": "127.0.0.1"}, "rtcpMux": True}
    source = worker.ask("router.createPlainTransport", plain, router=1, transport=2)
    mapping = {"codecs": [{"payloadType": 96, "mappedPayloadType": codec["type"]}],
               "encodings": [{"ssrc": 2222, "mappedSsrc": 100000000}]}
    worker.ask("transport.produce", {"kind": codec["kind"], "paused": False, "rtpMapping": mapping,
                                     "rtpParameters": parameters(codec, 96, 2222)},
               router=1, transport=2, producer=3)
    for place, port in enumerate(ports):
        transport, consumer = 10 + 2 * place, 11 + 2 * place
        worker.ask("router.createPlainTransport", {**plain, "comedia": False}, router=1, transport=transport)
        worker.ask("transport.connect", {"ip": ip, "port": port}, router=1, transport=transport)
        worker.ask("transport.consume", {"consumableRtpEncodings": [{"ssrc": 100000000}], "kind": codec["kind"], "paused": False,
                                         "rtpParameters": parameters(codec, codec["type"], 100000001 + place), "type": "simple"},
                   router=1, transport=transport, producer=3, consumer=consumer)
    return worker, source["tuple"]["localPort"]


def main(words):
    if len(words) < 3 or words[0] not in CODECS:
        sys.exit(__doc__)
    worker, port = forward(os.environ.get("MEDIAHUB", PROGRAM), CODECS[words[0]], words[1], [int(word) for word in words[2:]])
    print(port, flush=True)
    sys.stdin.read()
    worker.process.stdin.close()
    sys.exit(worker.process.wait())


if __name__ == "__main__":
    main(sys.argv[1:])
