"""What a disk may have of files when it stops at any call, by a record of the calls (strace)."""
import os
import re

from piping import run

CALL = re.compile(r"^(?:\d+ +)?(\w+)\((.*)\) += (-?\d+)")
QUIET = {**os.environ, "ASAN_OPTIONS": "detect_leaks=0"}


def recorded(program, folder, trace, *requests):
    """The calls of a run over a folder, and its answers, its status and what it said: of each file of the folder the writes, the changes of
    length and the syncs, as (name, ..), and the answers."""
    calls = "trace=openat,pwrite64,ftruncate,fdatasync,fsync,write"
    words = ["strace", "-f", "-qq", "-xx", "-s", "4000000", "-e", calls, "-o", trace, program, folder]
    told = run(words, *requests, env=QUIET)
    names, events = {}, []
    with open(trace, encoding="ascii") as it:
        for line in it:
            call = CALL.match(line)
            if call and int(call[3]) >= 0:
                see(call, names, events)
    return events, *told


def see(call, names, events):
    """Adds the event of a call; names has the open files."""
    name, told, answer = call[1], call[2], int(call[3])
    texts = [bytes.fromhex(text.replace("\\x", "")) for text in re.findall(r'"((?:\\x[0-9a-f]{2})*)"', told)]
    first = told.split(",")[0]
    if name == "openat" and texts:
        names[str(answer)] = os.path.basename(texts[0]).decode()
    elif name == "write" and first == "1":
        events.append((None, "answer"))
    elif first in names and name == "pwrite64":
        assert len(texts[0]) == answer, told[:200]
        events.append((names[first], "write", int(told.rsplit(",", 1)[1]), texts[0]))
    elif first in names and name == "ftruncate":
        events.append((names[first], "length", int(told.rsplit(",", 1)[1])))
    elif first in names and name in ("fdatasync", "fsync"):
        events.append((names[first], "sync"))


def apply(file, event):
    if event[1] == "length":
        del file[event[2]:]
        file.extend(bytes(event[2] - len(file)))
    else:
        _, _, at, bytes_ = event
        file.extend(bytes(max(0, at - len(file))))
        file[at:at + len(bytes_)] = bytes_


def image(synced, pending, rng):
    """What may be left: of what wasn't synced, each part of 1 or 512 bytes as it was or as it was written."""
    file, grain, chance = bytearray(synced), rng.choice((1, 512, 4096)), rng.choice((0, 0.1, 0.5, 0.9, 1))
    for event in pending:
        if event[1] == "length":
            if rng.random() < chance:
                apply(file, event)
            continue
        name, _, at, told = event
        place = 0
        while place < len(told):
            upto = min(len(told), (at + place) // grain * grain + grain - at)
            if rng.random() < chance:
                apply(file, (name, "write", at + place, told[place:upto]))
            place = upto
    return bytes(file)


def left(name, begun, events, rng):
    """What may be left of the file of this name, which began so, after these events."""
    synced, pending, now = begun, [], bytearray(begun)
    for event in events:
        if event[0] != name:
            continue
        if event[1] == "sync":
            synced, pending = bytes(now), []
        else:
            apply(now, event)
            pending.append(event)
    return image(synced, pending, rng)
