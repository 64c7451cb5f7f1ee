"""awkward.py PROGRAM FOLDER: a file that shrinks while it is read, a sparse one of five gigabytes in little memory, progress on a terminal, and
outputs that are closed."""

import os
import platform
import pty
import resource
import subprocess
import sys
import threading
import time

from logs import CHUNK, log, run_of
from program import end, hold

program, folder = sys.argv[1:]


def shrinking():
    """The command stands still once nobody reads what it prints; meanwhile the file is cut."""
    path = f"{folder}/shrinking.evtx"
    for verb, unread in (("list", ""), ("show", ", 15000 unread")):
        with open(path, "wb") as out:
            out.write(log([run_of(n * 500 + 1, n * 500 + 500) for n in range(40)], 20_001))
        with subprocess.Popen([program, verb, path], stdout=subprocess.PIPE, stderr=subprocess.PIPE) as run:
            first = run.stdout.read(1)
            os.truncate(path, 4096 + 30 * CHUNK + 5000)
            rest, said = run.communicate(timeout=60)
        lines = (first + rest).decode().splitlines()
        hold(run.returncode == 4 and b"became shorter while it was read: 2625536 bytes when it was opened, and it ended at 1975176" in said, "shrinking", verb, said)
        hold(lines[-2].startswith("   1970176  refused 1 at 0") and lines[-1].startswith(f"total: 15000 live, 0 carved, 1 refused{unread}; 31 chunks"),
             "shrinking", verb, lines[-2:])
        os.remove(path)


def sparse():
    """Five gigabytes of zeros behind a chunk, in 32 MB of address space; where an emulator runs the command, which needs more, in 128 MB of memory."""
    path = f"{folder}/sparse.evtx"
    with open(path, "wb") as out:
        out.write(log([run_of(1, 10)], 11))
        out.truncate(4096 + 80_000 * CHUNK)
    terminal, other = pty.openpty()

    def limit():
        if platform.machine() == "x86_64":
            resource.setrlimit(resource.RLIMIT_AS, (32 << 20, 32 << 20))

    parts = []

    def watch():
        try:
            while part := os.read(terminal, 4096):
                parts.append(part)
        except OSError:
            pass  # the other end is closed

    run = subprocess.Popen([program, "list", path], stdout=subprocess.PIPE, stderr=other, preexec_fn=limit)
    os.close(other)
    watcher = threading.Thread(target=watch)
    watcher.start()
    out, _ = run.communicate(timeout=600)
    watcher.join()
    said = b"".join(parts)
    lines = out.decode().splitlines()
    most = resource.getrusage(resource.RUSAGE_CHILDREN).ru_maxrss
    hold(most < 128 << 10, "sparse: memory", most)
    hold(run.returncode == 0 and lines[-2].split()[:3] == ["69632", "empty", "79999"], "sparse", run.returncode, lines[-2:])
    hold(lines[-1] == "total: 10 live, 0 carved, 0 refused; 80000 chunks present, 79999 of them empty", "sparse", lines[-1])
    # Each line of progress is taken away again, and nothing stays on the terminal; there is none where it took less than a second.
    hold(said == b"" or (b"sparse.evtx: " in said and b" of 5242 MB, " in said and said.endswith(b"\r\x1b[K") and b"\n" not in said), "progress", said)
    os.close(terminal)
    os.remove(path)
    return "shown" if said else "not needed"


def closed():
    """A reader that goes away, and descriptors that are not there."""
    path = f"{folder}/closed.evtx"
    with open(path, "wb") as out:
        out.write(log([run_of(n * 500 + 1, n * 500 + 500) for n in range(40)], 20_001))
    for command in (["list"], ["show"], ["show", "--json"], ["show", "--csv"], ["show", "--tokens"]):
        with subprocess.Popen([program, *command, path], stdout=subprocess.PIPE, stderr=subprocess.PIPE) as run:
            run.stdout.read(1)
            run.stdout.close()
            said = run.stderr.read()
            run.wait(60)
        hold(run.returncode == 4 and said.count(b"\n") == 1 and b"the program that it went to has closed its end" in said, "closed pipe", command, run.returncode, said)
    for shell, word in (('"$0" list "$1" >&-', b"could not be written"), ('"$0" show "$1" >&-', b"could not be written"), ('"$0" list - <&-', b"cannot")):
        run = subprocess.run(["sh", "-c", shell, program, path], capture_output=True, timeout=60)
        hold(run.returncode in (2, 4) and (word in run.stderr or b"empty" in run.stderr), shell, run.returncode, run.stderr)
    run = subprocess.run(["sh", "-c", '"$0" list "$1" >&- 2>&-', program, path], timeout=60)
    hold(run.returncode == 4, "all closed", run.returncode)
    os.remove(path)


def not_waiting():
    """Pipes that do not wait, on both sides: parts of a read and of a write."""
    made = log([run_of(n * 500 + 1, n * 500 + 500) for n in range(40)], 20_001)
    (given, into), (out, printed) = os.pipe(), os.pipe()
    for end_of_pipe in (given, printed):
        os.set_blocking(end_of_pipe, False)
    run = subprocess.Popen([program, "list", "-"], stdin=given, stdout=printed)
    os.close(given)
    os.close(printed)

    def feed():
        with os.fdopen(into, "wb") as pipe:
            for at in range(0, len(made), 30_011):
                pipe.write(made[at:at + 30_011])
                pipe.flush()

    feeder = threading.Thread(target=feed)
    feeder.start()
    parts = []
    while part := os.read(out, 5_000):
        parts.append(part)
        if len(parts) < 100:
            time.sleep(0.002)  # so that the pipe is full now and then, and has room for a part
    os.close(out)
    feeder.join()
    lines = b"".join(parts).decode().splitlines()
    hold(run.wait(60) == 0 and len(lines) == 20_002, "pipes that do not wait", run.returncode, len(lines))
    hold([int(line.split()[2]) for line in lines[1:-1]] == list(range(1, 20_001)), "pipes that do not wait: other IDs")


shrinking()
closed()
not_waiting()
end(f"shrinking, closed, waiting and sparse files (progress {sparse()})")
