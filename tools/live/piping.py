"""Runs a dav-serve without its front, over pipes, with a turn for each request."""
import contextlib
import os
import re
import struct
import subprocess

HELLO, OPENED, GOT, SENT, GONE, PASSED = range(6)
HOST = b"Host: localhost:4918\r\n"
FILES = 6

# The bytes of the first body: a journal begins anew once its records are longer than its first block, which has 4 KiB at least.
LEAST = 1000

# A second that passed, among requests. Two of them are one in which nothing was asked: then a long journal begins anew.
SECOND = "a second"
QUIET = (SECOND, SECOND)

# No look for leaks where a build has one.
PLAIN = {**os.environ, "ASAN_OPTIONS": "detect_leaks=0"}


def report(kind, told, seconds=0, date=1_000_000_000):
    return struct.pack("<IBIQQ", 0, kind, len(told), seconds, date) + told


def run(words, *requests, answered=None, **more):
    """The answers of one run, its status, and what it said: a piece of input for each request, so each has a turn of its own. `answered`
    is called after each answer with their count."""
    with subprocess.Popen(words, stdin=subprocess.PIPE, stdout=subprocess.PIPE, stderr=subprocess.PIPE, **more) as core:
        answers = []
        try:
            for told in [(HELLO, bytes(16)), (OPENED, b""), *((PASSED, b"") if it is SECOND else (GOT, it) for it in requests)]:
                core.stdin.write(report(*told))
                core.stdin.flush()
                if told[0] in (OPENED, GOT):
                    head = core.stdout.read(9)
                    if len(head) < 9:
                        break
                    answers.append(core.stdout.read(struct.unpack("<IBI", head)[2]))
                    if answered:
                        answered(len(answers) - 1)
            core.stdin.close()
        except BrokenPipeError:
            with contextlib.suppress(BrokenPipeError):
                core.stdin.close()
        said = core.stderr.read().decode()
        return answers[1:], core.wait(), said


def body(number):
    return bytes([65 + number % 26]) * (LEAST + 7 * number)


def put(number):
    """A PUT: each file in turn, over and over, with another body each time."""
    told = body(number)
    return b"PUT /f%d HTTP/1.1\r\n%sContent-Length: %d\r\n\r\n%s" % (number % FILES, HOST, len(told), told)


def get(number):
    return b"GET /f%d HTTP/1.1\r\n%s\r\n" % (number, HOST)


def look(words, **more):
    """What a start has: of each file which of the PUTs it is, None where it isn't there; the status, and what was said."""
    answers, status, said = run(words, *(get(number) for number in range(FILES)), **more)
    return [put_in(answer) for answer in answers], status, said


def put_in(answer):
    """Which PUT's body an answer has; None of a 404, and the answer itself of any other."""
    head, _, told = answer.partition(b"\r\n\r\n")
    if re.match(rb"HTTP/1.1 404 ", head):
        return None
    number = (len(told) - LEAST) // 7
    return number if number >= 0 and head.startswith(b"HTTP/1.1 200 ") and told == body(number) else answer


def after(count):
    """What the files are after the first so many PUTs."""
    return [max((number for number in range(file, count, FILES)), default=None) for file in range(FILES)]
