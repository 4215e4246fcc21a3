"""A dav-serve with a fault, for tools/live/test: it stands between the front and the program.

usage: faulty.py FAULT PROGRAM FOLDER ARGUMENT..      FAULT is one of FAULTS

What it does: texts of answers are others (a pattern, and what stands in its place); the program ends at some bytes of a request; or nothing that is put is
in FOLDER, since the program has a folder of its own.
"""
import os
import re
import struct
import subprocess
import sys
import tempfile
import threading

# By name: what is changed in answers, which keep their lengths, and the bytes of requests that end the program.
FAULTS = {
    "bad requests are answered as fine": ((rb"HTTP/1.1 400", b"HTTP/1.1 200"), None),
    "locks keep nobody out": ((rb"HTTP/1.1 423", b"HTTP/1.1 204"), None),
    "owners aren't told": ((rb"(?s)<D:owner.*?</D:owner>", lambda found: b" " * len(found[0])), None),
    "a deletion is 200": ((rb"HTTP/1.1 204", b"HTTP/1.1 200"), None),
    "odd bytes end it": (None, b"\xff"),
    "it keeps nothing": (None, None),
}


def forward(core, ends_at):
    """Hands reports on, until the input ends or has the bytes that end the program."""
    while True:
        came = os.read(0, 1 << 16)
        if ends_at and ends_at in came:
            core.kill()
        if not came:
            break
        try:
            core.stdin.write(came)
            core.stdin.flush()
        except OSError:
            break
    core.stdin.close()


def orders(core, change):
    """Hands orders on, each with its bytes as they are changed."""
    while len(head := core.stdout.read(9)) == 9:
        slot, then, length = struct.unpack("<IBI", head)
        told = core.stdout.read(length)
        if change:
            told = re.sub(change[0], change[1], told)
        sys.stdout.buffer.write(struct.pack("<IBI", slot, then, len(told)) + told)
        sys.stdout.buffer.flush()


def main():
    name, program, folder, *words = sys.argv[1:]
    change, ends_at = FAULTS[name]
    with tempfile.TemporaryDirectory() as own:
        core = subprocess.Popen([program, own if name == "it keeps nothing" else folder, *words], stdin=subprocess.PIPE, stdout=subprocess.PIPE)
        threading.Thread(target=forward, args=(core, ends_at), daemon=True).start()
        orders(core, change)
        return core.wait()


if __name__ == "__main__":
    os._exit(main() & 255)
