#!/usr/bin/env python3
"""Models of the core for tools/live/front: each hears the front's reports on its standard input and writes orders on its standard output.

usage: tools/live/fronting.py NAME [ARGUMENT..]     NAME: one of those at the end"""
import mmap
import os
import random
import resource
import select
import struct
import sys
import time

HELLO, OPENED, GOT, SENT, GONE, TICK, USERS, ROOM = range(8)
TELL, READ, CLOSE, READ_HEAD, READ_BODY = range(5)
HEAD, PIECE = 25, 65_536
SLOTS = 4096


class Broken(Exception):
    """A report that breaks the rule."""


class Slot:
    """A connection as the model sees it: what it is to be reported next, and what it is still to send back."""

    def __init__(self):
        self.owes, self.rest, self.expects = True, b"", None
        self.ended = self.asked_for_end = False
        self.is_new = True

    def hear(self, kind, bytes_):
        if kind not in (self.expects, GONE) or self.owes:
            raise Broken(f"{kind} where {self.expects} was expected, and an order was {'owed' if self.owes else 'out'}")
        if kind == GOT and self.ended:
            raise Broken("bytes after the end")
        self.owes = True
        self.ended |= kind == GOT and not bytes_
        self.asked_for_end |= bytes_.endswith(b"!")
        self.rest += bytes_

    def order(self, dice):
        """What it is ordered: what to do then, and bytes."""
        count = len(self.rest) if dice.random() < 0.5 else dice.randrange(len(self.rest) + 1)
        bytes_, self.rest = self.rest[:count], self.rest[count:]
        self.owes = False
        if self.rest or not self.is_new and dice.random() < 0.1:
            self.expects = SENT
            return TELL, bytes_
        if self.ended or self.asked_for_end:
            return CLOSE, bytes_
        self.expects = GOT
        if self.is_new:
            self.is_new = False
            return READ, bytes_
        return dice.choice([READ, READ_HEAD, READ_BODY]), bytes_


def frames():
    """Reports, as they come; None where nothing came for a moment."""
    input_, waiting = sys.stdin.buffer.raw, b""
    while True:
        while len(waiting) >= HEAD:
            slot, kind, length, seconds, date = struct.unpack("<IBIQQ", waiting[:HEAD])
            if len(waiting) < HEAD + length:
                break
            yield slot, kind, seconds, date, waiting[HEAD : HEAD + length]
            waiting = waiting[HEAD + length :]
        if not select.select([input_], [], [], 0.001)[0]:
            yield None
            continue
        came = input_.read(1 << 16)
        if not came:
            return
        waiting += came


def hear(slots, frame, last):
    slot, kind, seconds, date, bytes_ = frame
    if seconds < last or abs(date - time.time()) > 5 or len(bytes_) > PIECE or slot >= SLOTS:
        raise Broken(f"{frame[:4]} with {len(bytes_)} bytes")
    if kind == OPENED:
        if slot in slots:
            raise Broken("a slot that is taken was opened")
        slots[slot] = Slot()
    elif kind in (GOT, SENT, GONE):
        if slot not in slots:
            raise Broken(f"{kind} of a slot that is free")
        slots[slot].hear(kind, bytes_)
        if kind == GONE:
            del slots[slot]
    elif kind not in (HELLO, TICK, USERS, ROOM):
        raise Broken(f"kind {kind}")


def model(log, seed):
    """Answers until its input ends; writes how many reports it heard, or what was wrong."""
    dice, slots, last, count, begun, most = random.Random(seed), {}, 0, 0, time.time(), 0
    try:
        for frame in frames():
            if frame:
                hear(slots, frame, last)
                last, count, most = frame[2], count + 1, max(most, len(slots))
            if frame and dice.random() < 0.8:
                continue
            for number in [number for number, slot in slots.items() if slot.owes and dice.random() < 0.7]:
                then, bytes_ = slots[number].order(dice)
                if then == CLOSE:
                    del slots[number]
                sys.stdout.buffer.write(struct.pack("<IBI", number, then, len(bytes_)) + bytes_)
            sys.stdout.buffer.flush()
        said = f"{count} reports, {most} connections at once, {last - 0} seconds of {time.time() - begun:.0f}"
        if abs(last - (time.time() - begun)) > 3:
            raise Broken(f"seconds: {said}")
    except Broken as why:
        said = f"BROKEN: {why}"
    with open(log, "w", encoding="utf-8") as it:
        it.write(said)
    return said.startswith("BROKEN")


def order(slot, then, bytes_=b""):
    sys.stdout.buffer.write(struct.pack("<IBI", slot, then, len(bytes_)) + bytes_)
    sys.stdout.buffer.flush()


def brief():
    """A core that answers once, and ends."""
    sys.stdin.buffer.raw.read(1 << 16)
    sys.stdout.buffer.write(struct.pack("<IBI", 0, READ, 0))
    sys.stdout.buffer.flush()
    os._exit(7)


def killed():
    """A core that answers once, and is ended by the signal of which the number is in its environment."""
    sys.stdin.buffer.raw.read(1 << 16)
    sys.stdout.buffer.write(struct.pack("<IBI", 0, READ, 0))
    sys.stdout.buffer.flush()
    os.kill(os.getpid(), int(os.environ["ENDED_BY"]))
    time.sleep(10)


def share():
    """A core that takes 50 ms for what begins with `L`, and answers it with 100,000 bytes; for all else it takes a fifth of a millisecond."""
    for frame in frames():
        if frame and frame[1] in (OPENED, GOT):
            bytes_ = b"s"
            if frame[4].startswith(b"L"):
                bytes_ = b"l" * 100_000
            time.sleep(0.05 if len(bytes_) > 1 else 0.0002)
            next_ = READ if frame[1] == OPENED or frame[4] else CLOSE
            sys.stdout.buffer.write(struct.pack("<IBI", frame[0], next_, len(bytes_ if frame[1] == GOT else b"")) + (bytes_ if frame[1] == GOT else b""))
            sys.stdout.buffer.flush()


def much():
    """A core that answers what comes with thirty orders of a million bytes, each when it was told that those of the one before are sent."""
    left = 0
    for frame in frames():
        if frame and frame[1] in (OPENED, GOT, SENT):
            left = 30 if frame[4] == b"M" else max(0, left - 1)
            bytes_ = bytes(1_000_000 if left else 0)
            sys.stdout.buffer.write(struct.pack("<IBI", frame[0], TELL if left else READ, len(bytes_)) + bytes_)
            sys.stdout.buffer.flush()


def sink():
    """A core that takes what comes more slowly than it comes, and answers with nothing. It ends where that is no report, or isn't told that time passes."""
    is_greeted, ticked = False, time.time()
    for frame in frames():
        if frame and frame[1] in (TICK, OPENED):
            ticked = time.time()
        if time.time() > ticked + 2.5:
            return 8
        if frame and (frame[0] >= SLOTS or frame[1] == HELLO and is_greeted):
            return 9
        is_greeted |= frame is not None
        if frame and frame[1] in (OPENED, GOT):
            time.sleep(0.001)
            sys.stdout.buffer.write(struct.pack("<IBI", frame[0], READ if frame[4] or frame[1] == OPENED else CLOSE, 0))
            sys.stdout.buffer.flush()


def gather():
    """A core that answers all that it owes once it was asked nothing for a third of a second, each with its first byte. It closes after an `R`."""
    owed, last = [], 0.0
    for frame in frames():
        if frame and frame[1] in (OPENED, GOT):
            owed, last = [*owed, frame], time.time()
        elif owed and time.time() > last + 0.3:
            for slot, kind, _, _, came in owed:
                bytes_ = came[:1] if kind == GOT else b""
                next_ = READ if kind == OPENED or bytes_ not in (b"R", b"") else CLOSE
                sys.stdout.buffer.write(struct.pack("<IBI", slot, next_, len(bytes_)) + bytes_)
            sys.stdout.buffer.flush()
            owed = []


def work():
    """A core whose processor is at each byte for a while, but for an `S` alone; it answers with a byte, and reads again."""
    for frame in frames():
        if frame and frame[1] in (OPENED, GOT):
            end = time.process_time() + (0.00005 if frame[4] == b"S" else 1e-6 * len(frame[4]))
            while time.process_time() < end:
                pass
            order(frame[0], READ if frame[4] or frame[1] == OPENED else CLOSE, frame[4][:1])


def endless():
    """A core that answers an `M` with orders of 256 KiB without end, each when it was told that those of the one before are sent; and else with a byte."""
    for frame in frames():
        if frame and frame[1] in (OPENED, GOT, SENT):
            is_much = frame[4] == b"M" or frame[1] == SENT
            order(frame[0], TELL if is_much else READ if frame[4] or frame[1] == OPENED else CLOSE, bytes(1 << 18) if is_much else frame[4][:1])


def limited():
    """A core that may have 600 MB from its first answer on, tells of the room that it was told to who asks by `?`, and takes as much memory as bytes came
    with a `T` before them, and a `!` behind."""
    left, held, came = 0, [], None
    for frame in frames():
        if frame and frame[1] == ROOM:
            left = struct.unpack("<Q", frame[4])[0]
        if frame and frame[1] == OPENED:
            resource.setrlimit(resource.RLIMIT_AS, (600 << 20, 600 << 20))
            order(frame[0], READ)
        if frame and frame[1] == GOT:
            came = 0 if frame[4].startswith(b"T") else came
            text = b"" if came is not None else b"%d" % left
            came = None if came is None else came + len(frame[4])
            if came and frame[4].endswith(b"!"):
                held, came, text = [*held, mmap.mmap(-1, came)], None, b"."
            order(frame[0], READ if frame[4] else CLOSE, text if frame[4] else b"")


def told():
    """A core that answers with the address that a connection is told to come from, and what came."""
    addresses = {}
    for frame in frames():
        if frame and frame[1] == OPENED:
            addresses[frame[0]] = frame[4]
            order(frame[0], READ)
        if frame and frame[1] == GOT:
            order(frame[0], READ if frame[4] else CLOSE, addresses[frame[0]] + b" " + frame[4] if frame[4] else b"")


CORES = {"work": work, "endless": endless, "limited": limited, "told": told, "brief": brief, "killed": killed, "share": share, "much": much, "sink": sink, "gather": gather, "model": model}
if __name__ == "__main__":
    sys.exit(CORES[sys.argv[1]](*sys.argv[2:]))
