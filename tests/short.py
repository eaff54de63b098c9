#!/usr/bin/env python3
"""What the built programs do where room is short. Each word and number that they print is a write of its own: of what does not
fit into a pipe that does not wait, all is written up to the first word that has no room. And a script of calls without a load
runs on the stack that its own records take."""
import fcntl
import os
import resource
import struct
import subprocess
import sys

PIPE = 4096
WORD = 21  # the longest number, and a line's end


def fail(what):
    sys.exit(f"short: {what}")


def read(path):
    with open(path, "rb") as file:
        return file.read()


def printed(program, given):
    return subprocess.run([f"target/bin/{program}"], input=given, capture_output=True, check=True).stdout


def through(program, given, room):
    """What gets through a pipe with so much room that nobody reads meanwhile, and what is said of it."""
    out, into = os.pipe()
    fcntl.fcntl(into, fcntl.F_SETPIPE_SZ, PIPE)
    os.write(into, bytes(PIPE - room))
    os.set_blocking(into, False)
    run = subprocess.run([f"target/bin/{program}"], input=given, stdout=into, stderr=subprocess.PIPE, check=True)
    os.close(into)
    with open(out, "rb") as pipe:
        return pipe.read()[PIPE - room:], run.stderr.decode()


def try_room(program, given, line):
    whole = printed(program, given)
    for room in 1, 7, 100, 500, 900:
        got, said = through(program, given, room)
        if not whole.startswith(got) or said != f"{line}\n":
            fail(f"{program} with {room} bytes of room writes {len(got)}, says {said!r}")
        if len(got) + WORD < min(room, len(whole)):
            fail(f"{program} with {room} bytes of room writes only {len(got)}")


def try_stack(kilobytes, script, line):
    limit = (kilobytes * 1024, kilobytes * 1024)
    run = subprocess.run(["target/bin/calls"], input=script, capture_output=True, env={},
                         preexec_fn=lambda: resource.setrlimit(resource.RLIMIT_STACK, limit))
    if run.returncode != 0 or run.stdout != line:
        fail(f"calls on {kilobytes} KB of stack ends with {run.returncode} and writes {run.stdout}")


os.chdir(os.path.join(os.path.dirname(os.path.abspath(__file__)), ".."))
try_room("plan", read("examples/longest-plan.query"), "plan: the listing was not written")
query = read("examples/q.query")
load = b"\x01" + struct.pack("<H", len(query)) + query
link = b"\x02" + struct.pack("<5Q", 0, 1, 1, 5, 7)
try_room("calls", (load + link) * 100, "calls: an answer was not written")
for script, line in (
    (b"", b""),
    (b"\x08" + struct.pack("<QQH", 1, 8, 0), b"room 1 8 0\n"),
    (b"\x02" + struct.pack("<5Q", 0, 1, 1, 0, 0), b"refused 20\n"),
    (b"\x05" + struct.pack("<H", 0), b"refused 20\n"),
    (b"\x06" + struct.pack("<II", 0, 0), b"refused 20\ncells OK\noutput OK\n"),
):
    try_stack(180, script, line)
print("short: ok")
