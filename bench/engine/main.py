"""Runs the engine and the plain programs in turns, and prints what each takes for a packet out and for a close.

Usage: main.py FOLDER WORK REPEATS, as bench/engine.sh calls it."""

import subprocess
import sys

folder, work, repeats = sys.argv[1], sys.argv[2], int(sys.argv[3])
ENGINE = [f"{work}/crates/engine_bench/out/engine_bench"]


def run(words, requests=""):
    output = subprocess.run(words, input=requests, capture_output=True, text=True, check=True).stdout
    return [[int(word) for word in line.split()] for line in output.splitlines()]


def requests_of(kind, count):
    words = [sys.executable, f"{folder}/requests.py", kind, str(count)]
    return subprocess.run(words, capture_output=True, text=True, check=True).stdout


def programs(kind, consumers):
    words = [kind, str(consumers)]
    yield "engine", ENGINE
    yield "Rust", [f"{work}/plain_rust", *words, "same"]
    yield "Rust with the fewest look-ups", [f"{work}/plain_rust", *words, "fewest"]
    if kind in ("direct", "extended"):
        yield "C", [f"{work}/plain_c", *words]


def compare(kind, consumers):
    requests, best, sums = requests_of(kind, consumers), {}, {}
    for _ in range(repeats):
        for name, words in programs(kind, consumers):
            for length, time, frames, total in run(words, requests):
                if frames == 0:
                    sys.exit(f"{name}: nothing came out, {kind}, {consumers} Consumers")
                times = best.setdefault(length, {})
                times[name] = min(times.get(name, float("inf")), time / frames)
                sums.setdefault(length, set()).add((frames, total))
    for length, times in best.items():
        if len(sums[length]) != 1:
            sys.exit(f"the programs differ: {kind}, {length} bytes, {consumers} Consumers")
        engine = times.pop("engine")
        others = ", ".join(f"{name} {time:6.1f} ({engine / time:.2f} times)" for name, time in times.items())
        print(f"{kind:8} {length:5} bytes, {consumers:3} Consumers: engine {engine:6.1f} ns, {others}", flush=True)


def close(objects):
    requests = requests_of("close", objects)
    time, payloads = min(run(ENGINE, requests)[0] for _ in range(repeats))
    # The notice of each Consumer, the socket and the reply.
    if payloads != objects // 2 + 2:
        sys.exit(f"the close of {objects} objects made {payloads} payloads")
    print(f"close of a transport with {objects:6} objects: {time / 1e6:8.2f} ms, {time / objects:6.1f} ns an object", flush=True)


def closes(transports):
    requests = requests_of("closes", transports)
    time, payloads = min(run(ENGINE, requests)[0] for _ in range(repeats))
    # The socket and the reply of the last of them.
    if payloads != 2:
        sys.exit(f"the close of the last of {transports} transports made {payloads} payloads")
    print(f"closes of {transports:6} transports one by one: {time / 1e6:8.2f} ms, {time / transports:6.1f} ns a transport", flush=True)


for kind in ("direct", "extended", "plain", "pipe", "video"):
    for consumers in (1, 10, 50, 500):
        compare(kind, consumers)
for objects in (500, 5000, 50000):
    close(objects)
for transports in (500, 5000):
    closes(transports)
