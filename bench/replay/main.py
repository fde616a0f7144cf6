"""Writes journals into a directory, replays each, and prints a table of what that cost. bench/replay.sh says how to run it."""

import os
import signal
import subprocess
import sys
from threading import Timer

from shapes import HELD, SHAPES


def timed(command, source, target, limit):
    """Seconds of processor time, or None where the seconds of wall time passed the limit, and the status."""
    with open(source, "rb") as given, open(target, "wb") as got:
        child = subprocess.Popen(command, stdin=given, stdout=got, start_new_session=True)
        # Popen's own limit looks at the child in steps of up to 50 ms.
        end = Timer(limit, os.killpg, (child.pid, signal.SIGKILL))
        end.start()
        _, status, usage = os.wait4(child.pid, 0)
        end.cancel()
    status = child.returncode = os.waitstatus_to_exitcode(status)
    return None if status == -signal.SIGKILL else usage.ru_utime + usage.ru_stime, status


def lines_of(path):
    with open(path, "rb") as text:
        return sum(piece.count(b"\n") for piece in iter(lambda: text.read(1 << 20), b""))


def peak_of(program, journal, work, notes, limit):
    """The program's peak memory in bytes, from a run whose notes are counted; None where that run was ended."""
    peak, transcript = os.path.join(work, "peak"), os.path.join(work, "transcript")
    seconds, status = timed(["/usr/bin/time", "-q", "-f", "%M", "-o", peak, program, "replay"], journal, transcript, limit)
    if seconds is None:
        return None
    if status != 0 or lines_of(transcript) != notes:
        sys.exit(f"bench/replay.sh: status {status}, and {lines_of(transcript)} notes where {notes} are due")
    with open(peak, encoding="ascii") as text:
        return int(text.read()) * 1024


def best_of(runs, command, journal, limit):
    times = [timed(command, journal, os.devnull, limit)[0] for _ in range(runs)]
    return None if None in times else min(times)


def written(work, lines):
    journal = os.path.join(work, "journal")
    with open(journal, "w", encoding="ascii") as text:
        text.write("journal 1 7\n")
        text.writelines(lines)
    return journal


def row(program, work, shape, share, runs, limit):
    """What a row of the table shows; the best time and what stands behind it are missing where a run was ended."""
    lines, notes = shape(share)
    journal = written(work, lines)
    size, entries = os.path.getsize(journal), lines_of(journal) - 1
    peak = peak_of(program, journal, work, notes, limit)
    best = best_of(runs, [program, "replay"], journal, limit) if peak else None
    wc = best_of(runs, ["wc", "-l"], journal, limit)
    return size, entries, best, peak, wc


def bytes_for_each(program, work, shape, scale, limit):
    """What one more of a thing takes, its entries and notes included."""
    peaks, few, many = [], int(10_000 * scale), int(60_000 * scale)
    for count in (few, many):
        lines, notes = shape(count)
        peaks.append(peak_of(program, written(work, lines), work, notes, limit))
    return None if None in peaks else (peaks[1] - peaks[0]) / (many - few)


def show(name, size, entries, best, peak, wc, short):
    text = f"{name:33}{size / 1e6:8.1f}{entries:9}"
    if best is None:
        return f"{text}{'ended':>10}"
    ratio = f"{best / short:9.1f}" if short else ""
    return f"{text}{best:10.3f}{size / best / 1e6:8.1f}{peak / 1e6:9.1f}{peak / size:8.2f}{wc:8.3f}{ratio}"


def main():
    program, work, scale, runs, limit = sys.argv[1], sys.argv[2], float(sys.argv[3]), int(sys.argv[4]), float(sys.argv[5])
    print(f"{'':33}{'MB':>8}{'entries':>9}{'seconds':>10}{'MB/s':>8}{'peak MB':>9}{'/ text':>8}{'wc -l':>8}{'/ short':>9}")
    for name, shape in SHAPES:
        short = None
        for share in (scale / 10, scale):
            figures = row(program, work, shape, share, runs, limit)
            print(show(name, *figures, short), flush=True)
            short = figures[2]
    print(f"\n{'':33}{'bytes':>8}")
    for name, shape in HELD:
        each = bytes_for_each(program, work, shape, scale, limit)
        print(f"{name:33}{'ended' if each is None else round(each):>8}", flush=True)


if __name__ == "__main__":
    main()
