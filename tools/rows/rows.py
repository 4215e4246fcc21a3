"""Rows of scripts, read from files of text: crates/dav_run/rows/*.rows, */*.rows, and by their names tools/oracle/oracle.rows and
tools/rows/before.rows.

usage: no program; `files()` are the files right in crates/dav_run/rows, `all_files()` those in its folders too, `rows_of(FILE)` the rows of one

A file begins with words about its rows. A row is a line `# TITLE`, a line with a script, the lines that it writes, and last `status N` where
it doesn't end with status 0. Or each line below a title is a row of its own: a script, ` -> ` and its outcome,

    !                  it is no script: status 1, and nothing is written
    2                  two lines are written
    2 and status 3     two lines, and then it ends with this status

In the script of such a line there may be

    «0a»               the byte of these hexadecimal digits
    «5b×126»           so many of it
    «a read fails»     at its end: the read after these bytes fails
    «1 line fits»      at its end: the write after so many lines fails; what is written are the first of the lines that fit where all do

Among the words at the head there may be lines `«NAME» = TEXT`: below, `«NAME»` stands for TEXT, in which there may be names of lines before. A
name may have signs `…`, which stand for any texts, and these for the signs `…` of TEXT, in their order. Lines that are written may stand in
one, or in one TEXT, with ` ¶ ` between them.
"""
import collections
import glob
import os
import re

TOP = os.path.dirname(os.path.dirname(os.path.dirname(os.path.realpath(__file__))))
# Of a row with lines `wanted` is a list, with its status last; of a row with an outcome a text; of a damaged row what is wrong with it.
Row = collections.namedtuple("Row", "file title script wanted")
LINE = re.compile(r'\{"body":.*\}|\{"alone":[0-9]+\}')
STATUS = re.compile(r"status [1-9][0-9]*")
OUTCOME = re.compile(r"(.*) -> (!|[0-9]+(?: and status [1-9][0-9]*)?)")
FITS = re.compile(r"«([0-9]+) lines? fits?»$")
READ_FAILS = "«a read fails»"
BYTES = re.compile("«([0-9a-f]{2})(?:×([0-9]+))?»".encode())
DEFINITION = re.compile(r"^«([^«»]+)» = (.*)\n", re.M)
NAME = re.compile(r"«([^«»]+)»")
BETWEEN_LINES = " ¶ "


class Damaged(str):
    """What is wrong with a row."""


def files():
    return sorted(glob.glob(f"{TOP}/crates/dav_run/rows/*.rows"))


def all_files():
    return sorted(glob.glob(f"{TOP}/crates/dav_run/rows/**/*.rows", recursive=True))


class Names:
    """What the names in a file stand for."""

    def __init__(self, head):
        self.plain, self.forms = {}, []
        for name, text in DEFINITION.findall(head):
            self.add(name, self.in_full(text))

    def add(self, name, text):
        if "…" in name:
            self.forms.append((re.compile("(.*?)".join(map(re.escape, name.split("…")))), text.split("…")))
        self.plain[name] = text

    def text_of(self, name):
        if name in self.plain:
            return self.plain[name]
        for form, texts in self.forms:
            found = form.fullmatch(name)
            if found and len(texts) == len(found.groups()) + 1:
                return texts[0] + "".join(part + text for part, text in zip(found.groups(), texts[1:]))
        return f"«{name}»"

    def in_full(self, line):
        return NAME.sub(lambda found: self.text_of(found[1]), line)

    def lines(self, lines):
        return [line for text in lines for line in self.in_full(text).split(BETWEEN_LINES)]


def read(file):
    """The rows of a file, damaged ones too."""
    with open(file, encoding="utf-8") as text:
        head, *parts = re.split(r"^# ", text.read(), flags=re.M)
    name = os.path.basename(file)
    names = Names(head)
    if not DEFINITION.sub("", head).strip() or re.search(r"^\{", head, re.M):
        yield Row(name, "its head", None, Damaged("a file begins with words, and then with a title"))
    if not parts:
        yield Row(name, "its rows", None, Damaged("there are none"))
    for part in parts:
        title, *lines = part.rstrip("\n").split("\n")
        yield from below(name, title, names.lines(lines))


def below(file, title, lines):
    """The rows below a title."""
    if not title.strip() or not lines or LINE.fullmatch(lines[0]) or STATUS.fullmatch(lines[0]):
        yield Row(file, title, None, Damaged("no script" if title.strip() else "no title"))
    elif OUTCOME.fullmatch(lines[0]):
        yield from (with_outcome(file, title, line) for line in lines)
    else:
        yield Row(file, title, lines[0], fault_in(lines) or lines[1:])


def with_outcome(file, title, line):
    """A row in one line."""
    found = OUTCOME.fullmatch(line)
    if not found:
        return Row(file, title, line, Damaged(f"no outcome: {line[:200]}"))
    if "«" in bytes_of(found[1]).decode(errors="replace"):
        return Row(file, title, line, Damaged(f"no such bytes: {line[:200]}"))
    return Row(file, title, *found.groups())


def fault_in(lines):
    """What is wrong with a script and its lines, if anything is."""
    if not lines[0].startswith("{"):
        return Damaged(f"no script: {lines[0][:200]}")
    if len(lines) == 1:
        return Damaged("no lines")
    unknown = [found[0] for line in lines for found in NAME.finditer(line)]
    if unknown:
        return Damaged(f"no such name: {unknown[0][:200]}")
    written = lines[1:-1] if STATUS.fullmatch(lines[-1]) else lines[1:]
    odd = [line for line in written if not LINE.fullmatch(line)]
    return Damaged(f"no line of a reply: {odd[0][:200]}") if odd else None


def bytes_of(script):
    """The bytes of the script in a row with an outcome."""
    text = FITS.sub("", script.removesuffix(READ_FAILS))
    return BYTES.sub(lambda found: bytes.fromhex(found[1].decode()) * int(found[2] or 1), text.encode())


def fails(script):
    """Whether a read or a write fails in a row with an outcome."""
    return script.endswith(READ_FAILS) or bool(FITS.search(script))


def rows_of(file):
    """The rows of a file, none of which may be damaged: a title, a script, and what comes of it."""
    for row in read(file):
        if isinstance(row.wanted, Damaged):
            raise ValueError(f"{row.file}: {row.title}: {row.wanted}")
        yield row.title, row.script, row.wanted
