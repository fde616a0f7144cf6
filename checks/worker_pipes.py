"""Looks at a worker over real pipes; see worker.sh, which starts this.

Usage: worker_pipes.py PROGRAM RUN, with RUN the folder of worker_play, whose files stdin and stdout are taken. They
have lines `channel HEX`; the others say what isn't sent by pipes.
"""
import ctypes
import os
import signal
import subprocess
import sys
import time

PROGRAM, RUN = sys.argv[1], sys.argv[2]
COMMAND = [PROGRAM, "worker"]
PATIENCE = 20
RUNNING = b'{"event":"running","targetId":"worker"}'
# From Linux's sys/prctl.h.
PR_SET_CHILD_SUBREAPER = 36
# A parent that starts a worker with pipes to it, tells its number, and waits.
PARENT = """
import subprocess, sys, time
child = subprocess.Popen(sys.argv[1:], stdin=subprocess.PIPE, stdout=subprocess.PIPE)
print(child.pid, flush=True)
time.sleep(600)
"""
failed = False


def expect(what, got, wanted):
    """Tells what is other than it should be."""
    global failed
    if got != wanted:
        print(f"worker: {what}: {got!r:.300} for {wanted!r:.300}")
        failed = True


def stored(name, until):
    """The bytes of each line `channel HEX` of a stored file, up to the last that has these bytes."""
    with open(os.path.join(RUN, name), encoding="ascii") as lines:
        words = [line.rstrip("\n").split(" ") for line in lines]
    found = [bytes.fromhex(line[1]) for line in words if line[0] == "channel"]
    return found[:max(at for at, piece in enumerate(found) if until in piece)]


def start(**streams):
    return subprocess.Popen(COMMAND, **{"stdin": subprocess.PIPE, "stdout": subprocess.PIPE, **streams})


def served(pieces):
    """The output and the status of a worker that is given these pieces and then the end."""
    worker = start(bufsize=0)
    # The reader is another process, so neither side waits for the other.
    feeder = os.fork()
    if feeder == 0:
        worker.stdout.close()
        try:
            for piece in pieces:
                worker.stdin.write(piece)
        except BrokenPipeError:
            pass
        os._exit(0)
    worker.stdin.close()
    output = worker.stdout.read()
    os.waitpid(feeder, 0)
    return output, worker.wait(PATIENCE)


def cut(whole, size):
    return [whole[at:at + size] for at in range(0, len(whole), size)]


def answers():
    """The stored run, in its own pieces and in others."""
    # From this request on the stored run asks for sockets, whose ports are the system's here.
    given = stored("stdin", b'"worker.openRouter"')
    said = b"".join(stored("stdout", b'{"error":"TypeError","id":1,"reason":"method"}'))
    whole = b"".join(given)
    for size in (1, 7, 4096, len(whole)):
        expect(f"pieces of {size} bytes", served(cut(whole, size)), (said, 0))
    # A length over the limit ends a worker with status 3.
    expect("a length over the limit", served(given + [bytes.fromhex("01004000")]), (said, 3))
    expect("no bytes", served([]), (frame(RUNNING), 0))


def frame(payload):
    return len(payload).to_bytes(4, "little") + payload


def read_frame(worker):
    size = int.from_bytes(worker.stdout.read(4), "little")
    return worker.stdout.read(size)


def answers_at_once():
    """Each answer comes while the pipe is open, and the end of the pipe ends the worker."""
    worker = start(bufsize=0)
    expect("its first notice", read_frame(worker), RUNNING)
    router = b'{"id":7,"internal":{"routerId":"00000000-0000-4000-8000-000000000001"},"method":"worker.createRouter"}'
    worker.stdin.write(frame(router))
    expect("an answer while the pipe is open", read_frame(worker), b'{"accepted":true,"id":7}')
    idle(worker.pid)
    worker.stdin.close()
    closed = time.monotonic()
    expect("the status behind the end of the pipe", worker.wait(PATIENCE), 0)
    expect("ends within a second behind the end", time.monotonic() - closed < 1, True)


def ticks(pid):
    """The time of a processor that a process has taken, in ticks."""
    with open(f"/proc/{pid}/stat", encoding="ascii") as stat:
        fields = stat.read().rpartition(")")[2].split()
    return int(fields[11]) + int(fields[12])


def idle(pid, seconds=3):
    before = ticks(pid)
    time.sleep(seconds)
    expect(f"ticks of a processor in {seconds} idle seconds", ticks(pid) - before, 0)


def parent_dies():
    """A worker whose parent is killed ends by itself."""
    ctypes.CDLL(None, use_errno=True).prctl(PR_SET_CHILD_SUBREAPER, 1, 0, 0, 0)
    parent = subprocess.Popen([sys.executable, "-c", PARENT] + COMMAND, stdout=subprocess.PIPE)
    pid = int(parent.stdout.readline())
    parent.send_signal(signal.SIGKILL)
    parent.wait()
    killed = time.monotonic()
    _, status = os.waitpid(pid, 0)
    expect("ends within a second behind its parent", time.monotonic() - killed < 1, True)
    # Its notice may meet the closed pipe.
    expect("the status behind its parent", os.waitstatus_to_exitcode(status) in (0, 5), True)


def parent_dies_later():
    """The same once it has said that it runs: then it ends with status 0."""
    reading, writing = os.pipe()
    parent = subprocess.Popen(
        [sys.executable, "-c", PARENT.replace("stdout=subprocess.PIPE", f"stdout={writing}")] + COMMAND,
        stdout=subprocess.PIPE, pass_fds=(writing,))
    pid = int(parent.stdout.readline())
    expect("its notice", os.read(reading, 1000), frame(RUNNING))
    parent.send_signal(signal.SIGKILL)
    parent.wait()
    expect("the status behind its parent", os.waitstatus_to_exitcode(os.waitpid(pid, 0)[1]), 0)


def shell(line):
    """The status of the worker under the redirections of a shell's line, where it ends by itself."""
    return subprocess.run(["sh", "-c", f'"$0" worker {line}', PROGRAM], timeout=PATIENCE).returncode


def faults():
    for line, status in [
        ("</ >/dev/null", 4),
        ("<&- >/dev/null", 4),
        ("</dev/null >/dev/full", 5),
        ("</dev/null >&-", 5),
        ("</dev/null >/dev/null", 0),
    ]:
        expect(f"worker {line}", shell(line), status)
    # Nobody reads what it writes, and its input stays open.
    reading, writing = os.pipe()
    os.close(reading)
    worker = start(stdout=writing)
    expect("a closed standard output", worker.wait(PATIENCE), 5)
    worker.stdin.close()


signal.alarm(300)
answers()
answers_at_once()
parent_dies()
parent_dies_later()
faults()
if not failed:
    print("worker: all answers and endings are as they should be")
sys.exit(failed)
