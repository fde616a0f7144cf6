"""Finds how many packets a second the worker and the plain forwarder take, and prints it.

Usage: main.py PACKETS PROGRAM MILLISECONDS REPEATS, as bench/forward.sh calls it: PACKETS is the program of packets.c."""

import contextlib
import glob
import math
import os
import subprocess
import sys
import time
from dataclasses import dataclass

sys.path.append(os.path.join(os.path.dirname(os.path.abspath(__file__)), "..", "..", "examples"))
import forward as example

PACKETS, PROGRAM, MILLISECONDS, REPEATS = sys.argv[1], sys.argv[2], int(sys.argv[3]), int(sys.argv[4])
SENDER, FIRST_RECEIVER = 21000, 21001
# The part of the copies that may be lost, how close the bounds of the highest rate have to be, and how often a rate is tried.
LOSS, CLOSE, TRIES = 0.001, 1.03, 3
NAMES = ("worker", "C")


@dataclass
class Probe:
    """What came of a rate: packets sent a second, the part of the copies that was lost, the forwarder's nanoseconds of a processor for
    a copy, and the microseconds of the delay."""

    rate: float
    loss: float
    copies: float
    cost: float
    median: float
    high: float


class Forwarder:
    """A forwarder from one sender to so many receivers."""

    def __init__(self, name, receivers):
        self.ports = [str(FIRST_RECEIVER + place) for place in range(receivers)]
        self.sent = 0
        if name == "worker":
            worker, port = example.forward(PROGRAM, example.CODECS["opus"], "127.0.0.1", [int(port) for port in self.ports])
            self.process = worker.process
        else:
            self.process = subprocess.Popen([PACKETS, "plain", *self.ports], stdin=subprocess.DEVNULL, stdout=subprocess.PIPE)
            port = int(self.process.stdout.readline())
        self.port = str(port)

    def close(self):
        self.process.kill()
        self.process.wait()

    def processor_time(self):
        """Nanoseconds of a processor that its threads have taken."""
        total = 0
        for path in glob.glob(f"/proc/{self.process.pid}/task/*/schedstat"):
            with contextlib.suppress(OSError), open(path, encoding="ascii") as file:
                total += int(file.read().split()[0])
        return total

    def settle(self):
        """Waits until it has sent what it still had."""
        before, now = -1, self.processor_time()
        while before != now:
            time.sleep(0.05)
            before, now = now, self.processor_time()

    def probe(self, rate, payload, milliseconds=MILLISECONDS):
        """Sends at a rate, or with 0 as fast as it goes."""
        receiver = subprocess.Popen(
            [PACKETS, "receive", str(self.sent), *self.ports], stdin=subprocess.PIPE, stdout=subprocess.PIPE, text=True
        )
        receiver.stdout.readline()
        self.settle()
        before = self.processor_time()
        words = [PACKETS, "send", str(SENDER), self.port, str(rate), str(milliseconds), str(payload), str(self.sent)]
        sent, took = map(int, subprocess.run(words, stdout=subprocess.PIPE, text=True, check=True).stdout.split())
        came, wrong, median, high = map(int, receiver.communicate()[0].split())
        if wrong:
            sys.exit(f"{wrong} of {came} copies are not as they should be")
        self.sent += sent
        cost = (self.processor_time() - before) / max(came, 1)
        copies = sent * len(self.ports)
        return Probe(sent * 1e9 / took, 1 - came / copies, came * 1e9 / took, cost, median / 10, high / 10)

    def holds(self, rate, payload):
        """What came of the rate where under 0.1 % were lost in one of a few tries."""
        for _ in range(TRIES):
            probe = self.probe(rate, payload)
            if probe.loss < LOSS and probe.rate > rate / CLOSE:
                return probe
        return None

    def highest(self, payload):
        """The probe of the highest rate that holds, by bisection."""
        rate = max(1000, *(self.probe(0, payload).copies / len(self.ports) for _ in range(TRIES)))
        held, low, high = None, 0, math.inf
        while not held or high / low > CLOSE:
            probe = self.holds(rate, payload)
            if probe:
                held, low = probe, rate
            else:
                high = rate
            if high == math.inf:
                rate *= 1.1
            elif not held:
                rate /= 1.1
                if rate < 10:
                    sys.exit("nothing comes out")
            else:
                rate = math.sqrt(low * high)
        return held


def best_of(measure, payload, receivers, is_better):
    """What each forwarder gives at its best, where they take turns, each time a new one."""
    best = {}
    for _ in range(REPEATS):
        for name in NAMES:
            with contextlib.closing(Forwarder(name, receivers)) as forwarder:
                forwarder.probe(1000, payload, 100)
                probe = measure(forwarder)
            if name not in best or is_better(probe, best[name]):
                best[name] = probe
    return [best[name] for name in NAMES]


def compare(payload, receivers):
    worker, plain = best_of(lambda forwarder: forwarder.highest(payload), payload, receivers, lambda a, b: a.rate > b.rate)
    print(
        f"{payload:5} bytes, {receivers:2} receivers: worker {worker.rate:7.0f} a second, C {plain.rate:7.0f} "
        f"({worker.rate / plain.rate:.2f} times); a copy takes {worker.cost:5.0f} ns, C {plain.cost:5.0f}; ",
        end="",
        flush=True,
    )
    rate = min(worker.rate, plain.rate) / 10
    worker, plain = best_of(lambda forwarder: forwarder.probe(rate, payload), payload, receivers, lambda a, b: a.median < b.median)
    print(
        f"at {rate:6.0f} a second median {worker.median:6.1f} us, C {plain.median:6.1f}, 99th percentile {worker.high:7.1f} us, "
        f"C {plain.high:7.1f}",
        flush=True,
    )


for payload in (160, 1200):
    for receivers in (1, 10, 50):
        compare(payload, receivers)
