"""The two files of a state: their bytes, their blocks, and the one file of a state of vuldarg2, whose first block is the prefix alone."""
import os
import struct

NAMES = ("state", "state-wal")
FRONT, START, HEAD = 24, 72, 49
MASK = (1 << 64) - 1


def read(folder):
    """The bytes of both files, None of one that is missing."""
    found = []
    for name in NAMES:
        try:
            with open(f"{folder}/{name}", "rb") as it:
                found.append(it.read())
        except FileNotFoundError:
            found.append(None)
    return tuple(found)


def write(folder, files):
    """Makes these the files of a folder's state, in place of what it has of them."""
    for name, bytes_ in zip(NAMES, files):
        path = f"{folder}/{name}"
        if os.path.exists(path):
            os.remove(path)
        if bytes_ is not None:
            with open(path, "wb") as it:
                it.write(bytes_)


def size(folder):
    """How many bytes both files take."""
    return sum(len(bytes_) for bytes_ in read(folder) if bytes_ is not None)


def places(file):
    """Where the blocks of a file begin, and where the last ends."""
    found, at = [], START
    while file[at:at + 1] == b"\1":
        found.append(at)
        at += HEAD + struct.unpack(">Q", file[at + 1:at + 9])[0]
    return [*found, at]


def contents(file):
    """The contents of the blocks of a file."""
    found = places(file)
    return [file[place + HEAD:end] for place, end in zip(found, found[1:])]


def generation(file):
    """The generation of a file; None of one without a block."""
    found = contents(file) if file else []
    return struct.unpack(">Q", found[0][:8])[0] if found else None


def counting(files):
    """Which of the two files counts."""
    one, other = (generation(file) for file in files)
    return 1 if other is not None and (one is None or one < other) else 0


def turned(word, count):
    return (word << count | word >> (64 - count)) & MASK


def digest(key, told):
    """SipHash of one and three rounds, of the key and what is told."""
    a, b, c, d = 0x736f6d6570736575, 0x646f72616e646f6d, 0x6c7967656e657261, 0x7465646279746573

    def rounds(count):
        nonlocal a, b, c, d
        for _ in range(count):
            a, c = (a + b) & MASK, (c + d) & MASK
            b, d = turned(b, 13) ^ a, turned(d, 16) ^ c
            a = turned(a, 32)
            c, a = (c + b) & MASK, (a + d) & MASK
            b, d = turned(b, 17) ^ c, turned(d, 21) ^ a
            c = turned(c, 32)
    bytes_ = struct.pack("<Q", key) + told
    whole = len(bytes_) // 8 * 8
    last = int.from_bytes(bytes_[whole:], "little") | (len(bytes_) & 255) << 56
    for word in [*struct.unpack(f"<{whole // 8}Q", bytes_[:whole]), last]:
        d ^= word
        rounds(1)
        a ^= word
    c ^= 255
    rounds(3)
    return max(1, a ^ b ^ c ^ d)


def twice(number):
    return struct.pack(">QQ", number, MASK - number)


def block(key, place, content):
    """A block of this content at this place."""
    told = digest(key, content)
    own = digest(key, struct.pack(">QQQ", place, len(content), told))
    return b"\1" + twice(len(content)) + twice(content.count(0)) + struct.pack(">QQ", told, own) + content


def made(front, given):
    """A file with this front and these contents, a mark of its end, and the gate."""
    key, blocks = struct.unpack(">Q", front[8:16])[0], b""
    for content in given:
        blocks += block(key, START + len(blocks), content)
    return front[:FRONT] + twice(START + len(blocks)) + bytes(32) + blocks + b"\0"


def former(file):
    """The state of vuldarg2 with the records of a file of a pair that has no snapshot."""
    first, *others = contents(file)
    length = struct.unpack(">Q", first[8:16])[0]
    assert len(first) == 16 + length, "a snapshot"
    return made(file, [first[16:].rstrip(b"\0"), *others])
