#!/usr/bin/env python3
"""What the server answers, written a second time from its description: heads, conditions, files, locks, methods, replies, scripts.

usage: tools/oracle/oracle.py [FILE]      the script in FILE, or without it on standard input; prints a line for each reply

Nothing here is taken from the program. Each rule stands in plain words where it is applied, with its section of the standard where there
is one. tools/random/play-at-random plays scripts by this module and by the program, and compares the lines. The exit status is 0, or 1 where the
input is not a script.
"""
import copy
import datetime
import http
import json
import re
import sys

LAST_NUMBER = 2**64 - 1
LAST_MOMENT = 253402300799
LONGEST_FILE = 2147483647
LONGEST_HEAD = 65536
MOST_FIELDS = 64
LONGEST_SCRIPT = 16777216
DEEPEST_SCRIPT = 127
DEEPEST_TREE = 64

DAV = "DAV:"
APACHE = "http://apache.org/dav/props/"
MICROSOFT = "urn:schemas-microsoft-com:"
NEXTCLOUD = "http://nextcloud.org/ns"
OWNCLOUD = "http://owncloud.org/ns"
PREFIX_OF = {DAV: "D", APACHE: "A", MICROSOFT: "Z"}
DECLARED = [("A", APACHE), ("Z", MICROSOFT), ("nc", NEXTCLOUD), ("oc", OWNCLOUD)]

SERVED = ["GET", "HEAD", "PUT", "PATCH", "OPTIONS", "PROPFIND", "PROPPATCH", "MKCOL", "COPY", "MOVE", "DELETE", "LOCK", "UNLOCK"]
KNOWN = SERVED + ["REPORT", "MKCALENDAR", "MKADDRESSBOOK"]
TAKE_BYTES = ["PUT", "PATCH"]
TAKE_TREES = ["PROPFIND", "PROPPATCH", "LOCK"]

STATUS_OF = {
    "NotImplemented": 501, "GeneralFailure": 500, "Exists": 405, "NotFound": 404, "Forbidden": 403,
    "InsufficientStorage": 507, "LoopDetected": 508, "PathTooLong": 414, "TooLarge": 413, "IsRemote": 502,
}
# The phrases of the Rust crate `http`, where they differ from those of Python.
PHRASES = {413: "Payload Too Large", 414: "URI Too Long"}


class Refusal(Exception):
    """An error that becomes a reply: its status, without a body."""

    def __init__(self, status, close=False):
        super().__init__(status)
        self.status = status
        self.close = close

    def reply(self):
        headers = {"content-length": "0"}
        if self.close:
            headers["connection"] = "close"
        return Reply(self.status, headers)


class StoreError(Exception):
    """A store call that was refused, by the store or by the list of refusals."""

    def __init__(self, name):
        super().__init__(name)
        self.name = name
        self.status = STATUS_OF[name]


class NotScript(Exception):
    """The input is not a script."""


# Elements and replies


class Element:
    """An element of a body's tree; its children are texts and elements."""

    def __init__(self, name, prefix=None, namespace=None, attributes=(), children=()):
        self.name = name
        self.prefix = prefix
        self.namespace = namespace
        self.attributes = list(attributes)
        self.children = list(children)

    def elements(self):
        return [child for child in self.children if isinstance(child, Element)]

    def text(self):
        """The texts right below, joined; None where there is no text at all."""
        texts = [child for child in self.children if isinstance(child, str)]
        return "".join(texts) if texts else None

    def depth(self):
        return 1 + max((child.depth() for child in self.elements()), default=0)

    def with_prefix(self, prefix):
        return Element(self.name, prefix, self.namespace, self.attributes, self.children)

    def with_children(self, children):
        return Element(self.name, self.prefix, self.namespace, self.attributes, children)

    def key(self):
        """What a stored property is known by: no namespace is the empty one."""
        return (self.namespace or "", self.name)

    def printed(self):
        children = [child.printed() if isinstance(child, Element) else child for child in self.children]
        attributes = [list(pair) for pair in self.attributes]
        return {"attributes": attributes, "children": children, "name": self.name, "namespace": self.namespace, "prefix": self.prefix}


def made(name, *children, attributes=()):
    """An element that the server makes: prefix D and no namespace."""
    return Element(name, "D", None, attributes, children)


DECLARES_DAV = [("xmlns:D", DAV)]


class Reply:
    """A status, headers in the order of their names, and a body: None, bytes or an element."""

    def __init__(self, status, headers=None, body=None):
        self.status = status
        self.headers = headers or {}
        self.body = body

    def line(self):
        body = None
        if isinstance(self.body, Element):
            body = {"element": self.body.printed()}
        elif self.body is not None:
            body = {"hex": self.body.hex()}
        return printed({"body": body, "headers": self.headers, "status": self.status})


def printed(value):
    return json.dumps(value, sort_keys=True, separators=(",", ":"), ensure_ascii=False)


def status_text(status):
    """The status line's text (RFC 9112, 4): nothing follows the blank where there is no phrase."""
    if status in PHRASES:
        return f"HTTP/1.1 {status} {PHRASES[status]}"
    try:
        return f"HTTP/1.1 {status} {http.HTTPStatus(status).phrase}"
    except ValueError:
        return f"HTTP/1.1 {status} "


def date_of(moment):
    return datetime.datetime(1970, 1, 1) + datetime.timedelta(seconds=moment)


def http_date(moment):
    """The date in the form of RFC 9110, 5.6.7."""
    date = date_of(moment)
    day = ["Mon", "Tue", "Wed", "Thu", "Fri", "Sat", "Sun"][date.weekday()]
    month = ["Jan", "Feb", "Mar", "Apr", "May", "Jun", "Jul", "Aug", "Sep", "Oct", "Nov", "Dec"][date.month - 1]
    return f"{day}, {date.day:02} {month} {date.year:04} {date.hour:02}:{date.minute:02}:{date.second:02} GMT"


def internet_date(moment):
    """The date in the form of RFC 3339."""
    date = date_of(moment)
    return f"{date.year:04}-{date.month:02}-{date.day:02}T{date.hour:02}:{date.minute:02}:{date.second:02}Z"


# Paths


PLAIN = b"abcdefghijklmnopqrstuvwxyzABCDEFGHIJKLMNOPQRSTUVWXYZ0123456789-_.~/"


def escaped(path_bytes):
    return "".join(chr(byte) if byte in PLAIN else f"%{byte:02X}" for byte in path_bytes)


def joined(names, slash):
    if not names:
        return b"/"
    return b"/" + b"/".join(names) + (b"/" if slash else b"")


class Path:
    """The names behind the prefix, whether a slash ends the path, and the prefix."""

    def __init__(self, names, slash=False, prefix=b"", star=False):
        self.names = tuple(names)
        self.slash = slash or not self.names
        self.prefix = prefix
        self.star = star

    def behind(self):
        return b"*" if self.star else joined(self.names, self.slash)

    def url(self):
        return "*" if self.star else escaped(self.prefix + self.behind())

    def closed(self):
        return Path(self.names, True, self.prefix, self.star)

    def parent(self):
        return Path(self.names[:-1], True, self.prefix)

    def member(self, name, is_folder):
        return Path(self.names + (name,), is_folder, self.prefix)

    def same(self, other):
        return (self.names, self.prefix, self.star) == (other.names, other.prefix, other.star)


def percent_decoded(piece):
    """`%` and two hexadecimal digits is a byte (RFC 3986, 2.1); another `%` stays."""
    return re.sub(rb"%([0-9A-Fa-f]{2})", lambda found: bytes([int(found.group(1), 16)]), piece)


def path_of(text):
    """The path that a target or a Destination names; 400 for what is no path, 403 for one that climbs above the root."""
    if text == b"*":
        return Path((), star=True)
    if any(byte < 32 or byte > 126 for byte in text) or b"#" in text:
        raise Refusal(400)
    text = text.split(b"?", 1)[0]
    if not text.startswith(b"/"):
        raise Refusal(400)
    names = []
    for piece in text.split(b"/"):
        name = percent_decoded(piece)
        if b"\0" in name or b"/" in name:
            raise Refusal(400)
        if name == b"..":
            if not names:
                raise Refusal(403)
            names.pop()
        elif name not in (b"", b"."):
            names.append(name)
    return Path(names, text.endswith(b"/"))


def cut_prefix(path, prefix):
    """The path behind the server's prefix, which ends at a name's border; 502 for one outside of it."""
    cut = prefix[:-1] if prefix.endswith(b"/") else prefix
    whole = path.behind()
    if not cut:
        return path
    if path.star:
        raise Refusal(502)
    if whole == cut:
        return Path((), True, cut)
    if not whole.startswith(cut + b"/"):
        raise Refusal(502)
    rest = whole[len(cut):]
    return Path([name for name in rest.split(b"/") if name], rest.endswith(b"/"), cut)


# Heads


TOKEN = rb"[!#$%&'*+.^_`|~0-9A-Za-z-]+"
REQUEST_LINE = re.compile(rb"(?:\r?\n)*(" + TOKEN + rb") ([\x21-\x7e\x80-\xff]+) HTTP/1\.[01]\r?\n")
FIELD = re.compile(rb"(" + TOKEN + rb"):[ \t]*([\t\x20-\x7e\x80-\xff]*)\r?\n")
END = re.compile(rb"\r?\n")


class Head:
    """A request's method, target and fields (RFC 9112, 2 to 5)."""

    def __init__(self, method, target, fields):
        self.method = method
        self.target = target
        self.fields = fields

    def values(self, name):
        return [value for field, value in self.fields if field == name]

    def has(self, name):
        return bool(self.values(name))

    def one_text(self, name):
        """The value of a field that is there once and is text, else None."""
        values = self.values(name)
        return values[0] if len(values) == 1 and is_text(values[0]) else None


def is_text(value):
    return all(32 <= byte <= 126 or byte == 9 for byte in value)


def is_utf8(data):
    try:
        data.decode("utf-8")
        return True
    except UnicodeDecodeError:
        return False


def read_head(data):
    """The head in some bytes; 400 where they aren't one head and nothing after it."""
    if len(data) > LONGEST_HEAD:
        raise Refusal(400)
    line = REQUEST_LINE.match(data)
    if not line or not is_utf8(line.group(2)):
        raise Refusal(400)
    fields = []
    place = line.end()
    while True:
        end = END.match(data, place)
        if end:
            break
        field = FIELD.match(data, place)
        if not field or len(fields) == MOST_FIELDS:
            raise Refusal(400)
        fields.append((field.group(1).lower(), field.group(2).strip(b" \t")))
        place = field.end()
    if end.end() != len(data):
        raise Refusal(400)
    return Head(line.group(1), line.group(2), fields)


SCHEME = re.compile(rb"[A-Za-z0-9+.~-]*(?=://)")
AUTHORITY = re.compile(rb"[^/?#]*")


def is_authority(text):
    """Whether some text may be an authority (RFC 3986, 3.2), as the Rust crate `http` reads it."""
    if not text or not re.fullmatch(rb"[!$&'()*+,\-.0-9:;=@A-Z\[\]_a-z~%]*", text) or text.endswith(b"@"):
        return False
    host = text.rsplit(b"@", 1)[-1]
    if text.count(b"[") > 1 or text.count(b"]") > 1 or (b"[" in text) != (b"]" in text) or text.find(b"]") < text.find(b"["):
        return False
    port = host.rsplit(b"]", 1)[-1]
    return b"%" not in port and port.count(b":") <= 1


def is_path_and_query(text):
    path, mark, query = text.partition(b"?")
    path_is = re.fullmatch(rb"[\x21\"\x24-\x3b\x3d\x40-\x5f\x61-\x7e]*", path)
    return bool(path_is and re.fullmatch(rb"[\x21\x24-\x3b\x3d\x3f-\x7e]*", query))


def absolute_rest(target):
    """What follows the authority of an absolute target (RFC 9112, 3.2.2); 400 where it isn't one."""
    scheme = SCHEME.match(target)
    if b"#" in target or not scheme or len(scheme.group()) > 64:
        raise Refusal(400)
    rest = target[scheme.end() + 3:]
    authority = AUTHORITY.match(rest).group()
    after = rest[len(authority):]
    if not is_authority(authority) or not is_path_and_query(after):
        raise Refusal(400)
    return after or b"/"


def target_path(head, prefix):
    """The path of a request's target behind the prefix; `*` is taken for OPTIONS alone (RFC 9112, 3.2.4)."""
    if head.target == b"*":
        if head.method != b"OPTIONS":
            raise Refusal(400)
        return path_of(b"*")
    text = head.target if head.target.startswith(b"/") else absolute_rest(head.target)
    return cut_prefix(path_of(text), prefix)


# Typed headers: None where one isn't there or can't be read


def number(text):
    if not re.fullmatch(rb"[0-9]+", text):
        return None
    value = int(text)
    return value if value <= LAST_NUMBER else None


def depth_of(head):
    values = head.values(b"depth")
    if len(values) != 1:
        return None
    return {b"0": 0, b"1": 1, b"infinity": "infinity", b"Infinity": "infinity"}.get(values[0])


def overwrite_of(head):
    """T where it isn't there (RFC 4918, 10.6)."""
    return head.values(b"overwrite") != [b"F"]


def destination_of(head):
    """The text of a Destination (RFC 4918, 10.3): a path, or what follows the authority of a URL."""
    text = head.one_text(b"destination")
    if text is None:
        return None
    if text.startswith(b"/"):
        return text
    scheme = re.match(rb"https?://", text, re.IGNORECASE)
    if not scheme:
        return None
    slash = text.find(b"/", scheme.end())
    return b"/" if slash < 0 else text[slash:]


def timeout_of(head):
    """The first word of a Timeout (RFC 4918, 10.7): a number of seconds, "infinite", or None."""
    text = head.one_text(b"timeout")
    if text is None:
        return None
    words = [timeout_word(word.strip(b" \t")) for word in text.split(b",")]
    return None if None in words else words[0]


def timeout_word(word):
    if word == b"Infinite":
        return "infinite"
    seconds = number(word[7:]) if word.startswith(b"Second-") else None
    return seconds if seconds is not None and seconds < 2**32 else None


def entity_tag(text):
    """A tag (RFC 9110, 8.8.3) as a pair of weak and text, or None."""
    weak = text.startswith(b"W/")
    quoted = text[2:] if weak else text
    if len(quoted) < 2 or quoted[:1] != b'"' or quoted[-1:] != b'"' or b'"' in quoted[1:-1]:
        return None
    return (weak, quoted[1:-1])


def tags_of(head, name):
    """The tags of If-Match or If-None-Match (RFC 9110, 13.1): a list, "*", or None."""
    tags = []
    values = head.values(name)
    for value in values:
        if not is_text(value):
            return None
        if value.strip(b" \t") == b"*":
            return "*"
        pieces = [entity_tag(piece.strip(b" \t")) for piece in value.split(b",")]
        tags.extend(tag for tag in pieces if tag is not None)
    return tags if values else None


def content_length_of(head):
    values = [number(value) for value in head.values(b"content-length")]
    if not values or None in values or len(set(values)) != 1:
        return None
    return values[0]


def announced_length(head):
    """How long the body is said to be: by Content-Length, else by the first X-Expected-Entity-Length."""
    length = content_length_of(head)
    if length is None and head.has(b"x-expected-entity-length"):
        length = number(head.values(b"x-expected-entity-length")[0])
    return length


def content_range_of(head):
    """The bounds of a Content-Range (RFC 9110, 14.4), or None where it has none or isn't there; 400 where it can't be read."""
    values = head.values(b"content-range")
    if not values:
        return None
    found = re.fullmatch(rb"bytes (?:([0-9]+)-([0-9]+)|\*)/([0-9]+|\*)", values[0]) if len(values) == 1 else None
    if not found:
        raise Refusal(400, True)
    if any(part not in (None, b"*") and number(part) is None for part in found.groups()):
        raise Refusal(400, True)
    return (int(found.group(1)), int(found.group(2))) if found.group(1) else None


def update_range_of(head):
    """The place of a PATCH: ("from", first, last or None), ("last", count), ("append",), or None."""
    values = head.values(b"x-update-range")
    if len(values) != 1:
        return None
    if values[0] == b"append":
        return ("append",)
    found = re.fullmatch(rb"bytes=([0-9]*)-([0-9]*)", values[0])
    if not found or found.groups() == (b"", b""):
        return None
    first, last = (number(part) for part in found.groups())
    if (first is None and found.group(1)) or (last is None and found.group(2)):
        return None
    return ("last", last) if first is None else ("from", first, last)


def is_language_list(text):
    """Whether a text can be a Content-Language (RFC 9110, 8.5)."""
    data = text.encode()
    return is_text(data) and all(re.fullmatch(rb"[A-Za-z0-9-]+", item.strip(b" \t")) for item in data.split(b","))


def lock_token_of(head):
    """The only Lock-Token (RFC 4918, 10.5) without the angle brackets at its ends; two values are none."""
    values = head.values(b"lock-token")
    if len(values) != 1 or not is_text(values[0]):
        return None
    return values[0].strip(b"<>").decode()


def user_agent_of(head):
    values = head.values(b"user-agent")
    return values[0] if values and is_text(values[0]) else b""


# If (RFC 4918, 10.4)


BLANKS = b" \t\r\n"


class Unreadable(Exception):
    """The If header has no meaning, so it counts as absent."""


def bracketed(data, place):
    """The bytes in brackets from a place on, and the place after them. No blank is there; a closing sign in quotes doesn't close."""
    closing = {b"<": b">", b"[": b"]"}[data[place:place + 1]]
    quoted = False
    for end in range(place + 1, len(data)):
        sign = data[end:end + 1]
        if sign in (b" ", b"\t", b"\r", b"\n"):
            break
        if sign == b'"':
            quoted = not quoted
        elif sign == closing and not quoted:
            return data[place + 1:end], end + 1
    raise Unreadable


def if_parts(data):
    """The parts of an If: `(`, `)`, "Not", and pairs of a kind and bytes. Wherever a part may begin, Not is cut off first."""
    place = 0
    while place < len(data):
        sign = data[place:place + 1]
        if sign in (b" ", b"\t", b"\r", b"\n"):
            place += 1
        elif data.startswith(b"Not", place):
            yield ("not", None)
            place += 3
        elif sign in (b"(", b")"):
            yield (sign.decode(), None)
            place += 1
        elif sign in (b"<", b"["):
            inner, place = bracketed(data, place)
            yield (sign.decode(), inner)
        else:
            word = re.compile(rb"[^\x00-\x20<>()\[\]]+").match(data, place)
            if not word:
                raise Unreadable
            yield ("word", word.group())
            place = word.end()


def utf8(data):
    try:
        return data.decode("utf-8")
    except UnicodeDecodeError:
        raise Unreadable from None


def if_item(kind, inner):
    if kind in ("<", "word"):
        return ("token", utf8(inner))
    if kind == "[":
        utf8(inner)
        tag = entity_tag(inner)
        if tag is not None:
            return ("tag", tag)
    raise Unreadable


def if_conditions(parts):
    """The conditions up to the closing parenthesis: a Not before it means nothing after one condition or more."""
    conditions = []
    inverted = False
    for kind, inner in parts:
        if kind == ")":
            if not conditions:
                raise Unreadable
            return conditions
        if kind == "not":
            if inverted:
                raise Unreadable
            inverted = True
        else:
            conditions.append((inverted, if_item(kind, inner)))
            inverted = False
    raise Unreadable


def if_lists(data):
    parts = if_parts(data)
    lists = []
    tag = None
    for kind, inner in parts:
        if kind == "<" and tag is None:
            tag = tag_path(utf8(inner))
        elif kind == "(":
            lists.append((tag, if_conditions(parts)))
            tag = None
        else:
            raise Unreadable
    if tag is not None or not lists:
        raise Unreadable
    return lists


def if_of(head):
    """The lists of an If: pairs of a resource tag's path text (None without a tag) and conditions; None without an If that can be read."""
    values = head.values(b"if")
    if len(values) != 1:
        return None
    try:
        return if_lists(values[0])
    except Unreadable:
        return None


def if_tokens(lists):
    """All tokens of an If, as often as they are there, those under Not too."""
    return [item for _, conditions in lists or [] for _, (kind, item) in conditions if kind == "token"]


# The path of a URL as the URL Standard reads it: the part of that standard that the scripts of play-at-random need


SPECIAL = {"http", "https", "ws", "wss", "ftp"}
DOT = re.compile(r"\.|%2e", re.IGNORECASE)


def tag_path(text):
    """The path of the URL in a resource tag; unreadable where it is no URL, or a relative one."""
    found = re.match(r"([A-Za-z][A-Za-z0-9+.-]*):", text)
    if not found:
        raise Unreadable
    scheme, rest = found.group(1).lower(), text[found.end():]
    if scheme in SPECIAL:
        authority, path = re.fullmatch(r"[/\\]*([^/\\?#]*)([^?#]*).*", rest, re.DOTALL).groups()
        if not is_host(authority):
            raise Unreadable
        return url_path(path.replace("\\", "/") or "/")
    path = re.match(r"[^?#]*", rest).group()
    if path.startswith("//"):
        authority, path = re.fullmatch(r"//([^/]*)(.*)", path, re.DOTALL).groups()
        if authority and not is_host(authority, r"[^#/:<>?@\[\\\]^|]+"):
            raise Unreadable
    return url_path(path) if path.startswith("/") else path


def is_host(authority, host_form=r"[^\x00-\x20#%/:<>?@\[\\\]^|\x7f]+"):
    """Whether a host, with a port, may stand in a URL. Hosts that are numbers aren't looked into: no script here has one."""
    host, _, port = authority.rsplit("@", 1)[-1].partition(":")
    if port and not (re.fullmatch(r"[0-9]+", port) and int(port) <= 65535):
        return False
    return bool(re.fullmatch(host_form, host))


def url_path(path):
    """Dot segments are taken out; what climbs above the root stays at the root."""
    kept = []
    pieces = path[1:].split("/")
    for place, piece in enumerate(pieces):
        dots = DOT.sub(".", piece) if len(piece) <= 6 else piece
        last = place == len(pieces) - 1
        if dots == "..":
            if kept:
                kept.pop()
            if last:
                kept.append("")
        elif dots == ".":
            if last:
                kept.append("")
        else:
            kept.append(re.sub(r"[^\x21\x23-\x3b\x3d\x40-\x5f\x61-\x7a|~]", url_escaped, piece))
    return "/" + "/".join(kept)


def url_escaped(found):
    return "".join(f"%{byte:02X}" for byte in found.group().encode())


# The store


class Node:
    """A file or a folder: the number that it took last, its times, its bytes and its properties."""

    def __init__(self, is_folder, number, now):
        self.is_folder = is_folder
        self.number = number
        self.created = now
        self.modified = now
        self.data = b""
        self.properties = {}

    def tag(self):
        return f"{self.number:x}"

    def quoted_tag(self):
        return f'"{self.tag()}"'


class OpenFile:
    """A file that was opened: its node, and the place in it."""

    def __init__(self, node, writes, append):
        self.node = node
        self.writes = writes
        self.append = append
        self.place = 0


class Store:
    """Files and folders by their names, the next change number, and the calls that will be refused."""

    def __init__(self, next_number):
        self.nodes = {(): Node(True, 0, 0)}
        self.next = max(next_number, 1)
        self.refusals = []
        self.calls = 0

    def load(self, refusals):
        self.refusals = list(refusals)
        self.calls = 0

    def ask(self, call, *arguments):
        """One call of the store: the next entry of the list is its answer where that is an error."""
        self.calls += 1
        refusal = self.refusals.pop(0) if self.refusals else None
        if refusal is not None:
            raise StoreError(refusal)
        return call(*arguments)

    def try_ask(self, call, *arguments):
        """A call of which a refusal counts as finding nothing."""
        try:
            return self.ask(call, *arguments)
        except StoreError:
            return None

    def take_number(self):
        if self.next == LAST_NUMBER:
            raise StoreError("GeneralFailure")
        self.next += 1
        return self.next - 1

    def node(self, names):
        if names not in self.nodes:
            raise StoreError("NotFound")
        return self.nodes[names]

    def need_parent(self, names):
        parent = self.nodes.get(names[:-1])
        if parent is None or not parent.is_folder:
            raise StoreError("NotFound")
        return parent

    def members(self, names):
        return sorted(key[-1] for key in self.nodes if len(key) == len(names) + 1 and key[:-1] == names)

    def below(self, names):
        """The keys at or below some names."""
        return [key for key in self.nodes if key[:len(names)] == names]

    # The calls themselves, as a store answers that refuses nothing by a list.

    def metadata(self, path):
        return self.node(path.names)

    def read_dir(self, path):
        if not self.node(path.names).is_folder:
            raise StoreError("Forbidden")
        return self.members(path.names)

    def create_dir(self, path, now):
        if path.names in self.nodes:
            raise StoreError("Exists")
        parent = self.need_parent(path.names)
        self.nodes[path.names] = Node(True, self.take_number(), now)
        parent.modified = now

    def open(self, path, now, write=False, create=False, create_new=False, truncate=False, append=False):
        node = self.nodes.get(path.names)
        if node is None:
            node = self.open_missing(path.names, now, create or create_new)
        elif node.is_folder:
            raise StoreError("Forbidden")
        elif create_new:
            raise StoreError("Exists")
        elif truncate:
            node.number = self.take_number()
            node.data = b""
            node.modified = now
        return OpenFile(node, write or append, append)

    def open_missing(self, names, now, create):
        if not create:
            raise StoreError("NotFound")
        parent = self.need_parent(names)
        node = Node(False, self.take_number(), now)
        self.nodes[names] = node
        parent.modified = now
        return node

    def remove_file(self, path, now):
        if self.node(path.names).is_folder:
            raise StoreError("Forbidden")
        del self.nodes[path.names]
        self.nodes[path.names[:-1]].modified = now

    def remove_dir(self, path, now):
        if not path.names:
            raise StoreError("Forbidden")
        if not self.node(path.names).is_folder:
            raise StoreError("Forbidden")
        if self.members(path.names):
            raise StoreError("Exists")
        del self.nodes[path.names]
        self.nodes[path.names[:-1]].modified = now

    def rename(self, source, target, now):
        """A node takes another path, with all below it; numbers and properties stay."""
        if not source.names or not target.names:
            raise StoreError("Forbidden")
        self.node(source.names)
        if source.names == target.names:
            return
        if target.names[:len(source.names)] == source.names:
            raise StoreError("Forbidden")
        self.need_parent(target.names)
        if self.members(target.names):
            raise StoreError("Exists")
        self.nodes.pop(target.names, None)
        for key in self.below(source.names):
            self.nodes[target.names + key[len(source.names):]] = self.nodes.pop(key)
        self.nodes[source.names[:-1]].modified = now
        self.nodes[target.names[:-1]].modified = now

    def copy(self, source, target, now):
        """A file's bytes and properties, under a new number."""
        node = self.node(source.names)
        there = self.nodes.get(target.names)
        if node.is_folder or source.names == target.names or (there and there.is_folder):
            raise StoreError("Forbidden")
        parent = self.need_parent(target.names)
        number_taken = self.take_number()
        if there is None:
            parent.modified = now
        new = Node(False, number_taken, now)
        new.data = node.data
        new.properties = dict(node.properties)
        self.nodes[target.names] = new

    def have_props(self):
        return True

    def patch_props(self, path, patches):
        node = self.node(path.names)
        for sets, element in patches:
            if sets:
                node.properties[element.key()] = element
            else:
                node.properties.pop(element.key(), None)

    def get_props(self, path):
        properties = self.node(path.names).properties
        return [properties[key] for key in sorted(properties, key=lambda key: [part.encode() for part in key])]

    def get_prop(self, path, element):
        properties = self.node(path.names).properties
        if element.key() not in properties:
            raise StoreError("NotFound")
        return properties[element.key()]

    def get_quota(self):
        raise StoreError("NotImplemented")

    def read_bytes(self, file, count):
        data = file.node.data[file.place:file.place + count]
        file.place += len(data)
        return data

    def write_bytes(self, file, data, now):
        if not file.writes:
            raise StoreError("Forbidden")
        node = file.node
        place = len(node.data) if file.append else file.place
        end = place + len(data)
        if end > LONGEST_FILE:
            raise StoreError("TooLarge")
        if data:
            node.number = self.take_number()
            node.data = node.data[:place].ljust(place, b"\0") + data + node.data[end:]
            node.modified = now
            file.place = end

    def seek(self, file, place):
        file.place = place

    def flush(self, file):
        pass

    def file_metadata(self, file):
        return file.node


# Locks (RFC 4918, 6 and 7)


class Lock:
    def __init__(self, token, path, principal, owner, timeout, shared, deep):
        self.token = token
        self.path = path
        self.principal = principal
        self.owner = owner
        self.timeout = timeout
        self.shared = shared
        self.deep = deep

    def covers(self, names):
        own = self.path.names
        return own == names or (self.deep and names[:len(own)] == own)

    def at_or_below(self, names):
        return self.path.names[:len(names)] == names

    def at_or_above(self, names):
        return names[:len(self.path.names)] == self.path.names


class Locks:
    """The locks in the order in which they were granted."""

    def __init__(self):
        self.list = []

    def covering(self, names):
        return [lock for lock in self.list if lock.covers(names)]

    def check(self, path, principal, ignore_principal, deep, tokens):
        """Whether nobody else's lock is in the way. Of shared locks one that is held is enough."""
        def held(lock):
            return lock.token in tokens and (ignore_principal or lock.principal == principal)

        covering = self.covering(path.names)
        if any(not lock.shared and not held(lock) for lock in covering):
            return False
        if covering and not any(held(lock) for lock in covering):
            return False
        return not deep or all(held(lock) for lock in self.list if lock.at_or_below(path.names))

    def lock(self, lock):
        """Whether the lock is granted, and then it is in the list."""
        names = lock.path.names
        covering = self.covering(names)
        if any(not lock.shared or not other.shared for other in covering):
            return False
        if lock.deep and any(other.at_or_below(names) and other.path.names != names for other in self.list):
            return False
        self.list.append(lock)
        return True

    def find(self, path, token):
        """The lock of a token at a path or above it: the shortest path first, then the first granted."""
        found = [lock for lock in self.list if lock.token == token and lock.at_or_above(path.names)]
        return min(found, key=lambda lock: len(lock.path.names), default=None)

    def unlock(self, path, token):
        lock = self.find(path, token)
        if lock is not None:
            self.list = [other for other in self.list if other is not lock]
        return lock is not None

    def delete(self, path):
        self.list = [lock for lock in self.list if not lock.at_or_below(path.names)]

    def discover(self, path):
        return sorted(self.covering(path.names), key=lambda lock: len(lock.path.names))


def scope_and_type(shared):
    scope = made("lockscope", made("shared" if shared else "exclusive"))
    return [scope, made("locktype", made("write"))]


def active_lock(lock):
    children = scope_and_type(lock.shared)
    children.append(made("depth", "Infinity" if lock.deep else "0"))
    children.append(made("timeout", "Infinite" if lock.timeout is None else f"Second-{lock.timeout}"))
    children.append(made("locktoken", made("href", lock.token)))
    children.append(made("lockroot", made("href", lock.path.url())))
    if lock.owner is not None:
        children.append(lock.owner)
    return made("activelock", *children)


def lock_discovery(locks, path):
    found = locks.discover(path) if locks is not None else []
    return made("lockdiscovery", *[active_lock(lock) for lock in found])


def supported_lock(locks):
    if locks is None:
        return made("supportedlock")
    return made("supportedlock", *[made("lockentry", *scope_and_type(shared)) for shared in (False, True)])


def lock_request(tree):
    """Whether a LOCK's body asks for a shared lock, and its owner; 400 where it asks for none. Of two answers the later one counts."""
    shared = owner = None
    has_type = False
    for element in tree.elements():
        first = element.elements()[0].name if element.elements() else None
        if element.name == "lockscope" and first in ("exclusive", "shared"):
            shared = first == "shared"
        elif element.name == "locktype" and first == "write":
            has_type = True
        elif element.name == "owner":
            owner = element.with_prefix("D")
        else:
            raise Refusal(400)
    if shared is None or not has_type:
        raise Refusal(400)
    return shared, owner


# Properties


def dav(name):
    return Element(name, "D", DAV)


def microsoft(name):
    return Element(name, "Z", MICROSOFT)


TEN = [dav(name) for name in (
    "creationdate", "displayname", "getcontentlanguage", "getcontentlength", "getcontenttype", "getetag", "getlastmodified",
    "lockdiscovery", "resourcetype", "supportedlock")]
WINDOWS = [microsoft(name) for name in ("Win32CreationTime", "Win32FileAttributes", "Win32LastAccessTime", "Win32LastModifiedTime")]
BY_NAME = TEN + [dav("quota-available-bytes"), dav("quota-used-bytes"), Element("executable", "A", APACHE), WINDOWS[2]]
KEPT_IN_STORE = ((DAV, "displayname"), (DAV, "getcontentlanguage"))


def with_rest(first, rest):
    keys = [element.key() for element in first]
    return first + [element for element in rest if element.key() not in keys]


def find_question(body, user_agent):
    """The kind of a PROPFIND and the properties that it asks for; 400 where it asks for nothing (RFC 4918, 9.1 and 14.20)."""
    kind, included, asked = "allprop", [], []
    if body is not None:
        if not isinstance(body, Element) or body.name != "propfind" or body.namespace != DAV:
            raise Refusal(400)
        kind, included, asked = read_question(body)
    if kind == "prop":
        return kind, asked
    if kind == "propname":
        return kind, BY_NAME
    windows = WINDOWS if b"Microsoft" in user_agent else []
    return kind, with_rest(included, TEN + windows)


def read_question(tree):
    children = tree.elements()
    included = []
    for place, child in enumerate(children):
        if child.name == "includes":
            included = child.elements()
            del children[place]
            break
    for child in children:
        if child.name in ("propname", "prop", "allprop"):
            return child.name, included, child.elements()
    raise Refusal(400)


class PropertyWriter:
    """Answers the properties that one PROPFIND asks for, of one resource after another."""

    def __init__(self, server, request, kind, asked):
        self.server = server
        self.store = server.store
        self.request = request
        self.kind = kind
        self.asked = asked
        self.quota_asked = False
        self.responses = []

    def write(self, path, node):
        found = [self.value(element, path, node) for element in self.asked]
        found = [element for element in found if element is not None]
        if self.store.try_ask(self.store.have_props):
            found.extend(self.store.try_ask(self.store.get_props, path) or [])
        response = made("response", made("href", path.url()))
        if found:
            response.children.append(made("propstat", made("prop", *found), made("status", status_text(200))))
        self.responses.append(response)

    def value(self, element, path, node):
        """One property as it is told, or None where it isn't there. Names alone are told without content."""
        prefix = PREFIX_OF.get(element.namespace)
        if prefix is None or element.key() in KEPT_IN_STORE:
            return self.stored(element, path)
        special = self.special(element, path, node)
        if special is not None:
            return special
        text = self.text(element, path, node)
        if text is None:
            return None
        children = [text] if text and self.kind != "propname" else []
        return Element(element.name, prefix, None, (), children)

    def stored(self, element, path):
        """What the store keeps is asked for by name alone."""
        if self.kind != "prop" or not self.store.try_ask(self.store.have_props):
            return None
        return self.store.try_ask(self.store.get_prop, path, element)

    def special(self, element, path, node):
        """The properties that aren't a text."""
        if element.namespace != DAV:
            return None
        content = self.kind != "propname"
        if element.name == "resourcetype":
            added = [made("collection")] if node.is_folder and content else []
            return element.with_children(element.children + added)
        if element.name == "supportedlock":
            return supported_lock(self.server.locks if content else None)
        if element.name == "lockdiscovery":
            return lock_discovery(self.server.locks if content else None, path)
        if element.name == "current-user-principal" and self.request.principal is not None:
            added = [made("href", self.request.principal)] if content else []
            return element.with_children(element.children + added)
        return None

    def text(self, element, path, node):
        if element.namespace == DAV:
            return self.dav_text(element.name, node)
        if element.namespace == MICROSOFT:
            return windows_text(element.name, path, node)
        return None

    def dav_text(self, name, node):
        if name == "creationdate":
            return internet_date(node.created)
        if name == "getlastmodified":
            return http_date(node.modified)
        if name == "getetag":
            return node.quoted_tag()
        if name == "getcontentlength":
            return None if node.is_folder else str(len(node.data))
        if name == "getcontenttype":
            return "httpd/unix-directory" if node.is_folder else "application/octet-stream"
        if name in ("quota-available-bytes", "quota-used-bytes"):
            self.ask_quota()
        return None

    def ask_quota(self):
        """The quota is asked for once in a request; no store here tells it."""
        if not self.quota_asked:
            self.quota_asked = True
            self.store.try_ask(self.store.get_quota)


def windows_text(name, path, node):
    if name == "Win32CreationTime":
        return http_date(node.created)
    if name == "Win32LastModifiedTime":
        return http_date(node.modified)
    if name == "Win32FileAttributes":
        hidden = 2 if path.names and path.names[-1].startswith(b".") else 0
        return f"{hidden + (16 if node.is_folder else 32):08x}"
    return None


def patches_of(tree):
    """The changes that a PROPPATCH asks for, in order: pairs of whether one sets and the property (RFC 4918, 9.2)."""
    if not isinstance(tree, Element) or tree.name != "propertyupdate":
        raise Refusal(400)
    return [(change.name == "set", element)
            for change in tree.elements() if change.name in ("set", "remove")
            for properties in change.elements() if properties.name == "prop"
            for element in properties.elements()]


def is_plain_text(element):
    return element.text() is not None and not element.elements()


def rule_of_set(element, keeps):
    """The status that the server answers for a property to be set, or None where the store is to keep it."""
    key = (element.namespace, element.name)
    if key in KEPT_IN_STORE:
        if not is_plain_text(element):
            return 409
        if element.name == "getcontentlanguage" and not is_language_list(element.text()):
            return 409
        return None if keeps else 403
    if key in ((DAV, "getlastmodified"), (APACHE, "executable")):
        return 403 if is_plain_text(element) else 409
    if key in [windows.key() for windows in WINDOWS]:
        return 200 if is_plain_text(element) else 409
    return 403 if element.namespace in PREFIX_OF else None


def rule_of_remove(element, keeps):
    if (element.namespace, element.name) in KEPT_IN_STORE:
        return 200 if keeps else 403
    return 403 if element.namespace in PREFIX_OF else None


def shown_by_name(element):
    """A property without its content; its namespace is declared."""
    attributes = []
    if element.namespace is not None:
        name = f"xmlns:{element.prefix}" if element.prefix else "xmlns"
        attributes = [(name, element.namespace)]
    return Element(element.name, element.prefix, element.namespace, attributes)


# The server


class Request:
    def __init__(self, head, body=None, principal=None, moment=0, token=None, refuse=()):
        self.head = head
        self.body = body
        self.principal = principal
        self.moment = moment
        self.token = token
        self.refuse = list(refuse)


class Call:
    """A request whose head and target were accepted."""

    def __init__(self, head, path, body, request):
        self.head = head
        self.method = head.method.decode()
        self.path = path
        self.body = body
        self.principal = request.principal
        self.moment = request.moment
        self.token = request.token
        self.location = None

    def folder_path_rule(self, node):
        """The path of a folder gets a slash, and the reply tells so."""
        if node is not None and node.is_folder and not self.path.slash:
            self.path = self.path.closed()
            self.location = self.path.url()

    def headers(self, **more):
        headers = {name.replace("_", "-"): value for name, value in more.items()}
        if self.location is not None:
            headers["content-location"] = self.location
        return headers


XML = "application/xml; charset=utf-8"


class Server:
    """A store, locks, and the thirteen methods."""

    def __init__(self, prefix=b"", methods=None, locks=True, next_number=1):
        self.prefix = prefix
        self.methods = set(KNOWN if methods is None else methods)
        self.locks = Locks() if locks else None
        self.store = Store(next_number)

    def play(self, request):
        self.store.load(request.refuse)
        try:
            call = self.accept(request)
            return getattr(self, call.method.lower())(call)
        except Refusal as refusal:
            return refusal.reply()

    def accept(self, request):
        """Faults are looked for in this order: the head, the method, the target, the prefix, the body."""
        head = read_head(request.head)
        method = head.method.decode()
        if method not in SERVED:
            raise Refusal(501)
        if method not in self.methods:
            raise Refusal(405, True)
        path = target_path(head, self.prefix)
        return Call(head, path, accepted_body(method, request.body), request)

    # What several methods do

    def look(self, path):
        """The metadata at a path; a refusal is the reply's status."""
        try:
            return self.store.ask(self.store.metadata, path)
        except StoreError as error:
            raise Refusal(error.status) from None

    def status_of(self, call, *arguments):
        """The answer of a store call; a refusal is the reply's status."""
        try:
            return self.store.ask(call, *arguments)
        except StoreError as error:
            raise Refusal(error.status) from None

    def http_condition(self, call, node):
        """If-Match, and then If-None-Match (RFC 9110, 13.1): the status that ends the request, or None. Both compare strongly."""
        wanted = tags_of(call.head, b"if-match")
        if wanted is not None and not matches(wanted, node):
            return 412
        unwanted = tags_of(call.head, b"if-none-match")
        if unwanted is not None and matches(unwanted, node):
            return 304 if call.method in ("GET", "HEAD") else 412
        return None

    def dav_condition(self, call):
        """Whether an If holds (RFC 4918, 10.4): one whose items all hold is enough, and no further is looked at."""
        lists = if_of(call.head)
        if lists is None:
            return True
        return any(all(self.item_holds(call, tag, item) != inverted for inverted, item in conditions) for tag, conditions in lists)

    def item_holds(self, call, tag, item):
        path = call.path if tag is None else self.tagged_path(call, tag)
        kind, value = item
        if path is None:
            return False
        if kind == "tag":
            node = self.store.try_ask(self.store.metadata, path)
            return node is not None and matches([value], node)
        if value.startswith("DAV:") or self.locks is None:
            return False
        return self.locks.check(path, None, True, False, [value])

    def tagged_path(self, call, tag):
        try:
            path = path_of(tag.encode())
            return None if path.star else cut_prefix(path, call.path.prefix)
        except Refusal:
            return None

    def if_match(self, call, node):
        """For GET, HEAD and LOCK: If comes first."""
        if not self.dav_condition(call):
            raise Refusal(412)
        status = self.http_condition(call, node)
        if status is not None:
            raise Refusal(status)

    def if_match_get_tokens(self, call, node, close=False):
        """For methods that change something: If comes last, and its tokens are answered."""
        if self.http_condition(call, node) is not None or not self.dav_condition(call):
            raise Refusal(412, close)
        return if_tokens(if_of(call.head))

    def check(self, call, path, deep, tokens, close=False):
        if self.locks is not None and not self.locks.check(path, call.principal, False, deep, tokens):
            raise Refusal(423, close)

    def check_parent(self, call, path, tokens, close=False):
        """A lock on a folder, whatever its depth is, guards the names in it (RFC 4918, 7.4). The root is in no folder."""
        if path.names:
            self.check(call, path.parent(), False, tokens, close)

    def multi_error(self, call, items):
        """One item of the request's own path is a bare status; else each path is told (RFC 4918, 13)."""
        if not items:
            raise Refusal(500)
        if len(items) == 1 and items[0][0].same(call.path):
            return Reply(items[0][1])
        responses = [made("response", made("href", path.url()), made("status", status_text(200 if status == 204 else status)))
                     for path, status in items]
        return Reply(207, {"content-type": XML}, made("multistatus", *responses, attributes=DECLARES_DAV))

    # GET, HEAD (RFC 9110, 9.3.1 and 9.3.2)

    def get(self, call):
        node = self.look(call.path)
        if node.is_folder:
            raise Refusal(405)
        try:
            self.if_match(call, node)
        except Refusal as refusal:
            if refusal.status == 304:
                return Reply(304, {"etag": node.quoted_tag()})
            raise
        data = None
        if call.method == "GET":
            file = self.status_of(self.store.open, call.path, call.moment)
            data = self.status_of(self.store.read_bytes, file, len(node.data))
        headers = {"content-length": str(len(node.data)), "content-type": "application/octet-stream"}
        headers.update(etag=node.quoted_tag(), **{"last-modified": http_date(node.modified)})
        return Reply(200, headers, data)

    head = get

    # PUT, PATCH (RFC 9110, 9.3.4; RFC 5789)

    def put(self, call):
        node = self.store.try_ask(self.store.metadata, call.path)
        length = announced_length(call.head)
        update = self.update_range(call, node, length) if call.method == "PATCH" else None
        bounds, length = content_bounds(call.head, length)
        tokens = self.if_match_get_tokens(call, node, True)
        self.check(call, call.path, False, tokens, True)
        if node is None:
            self.check_parent(call, call.path, tokens, True)
        body = call.body or b""
        if length is not None and len(body) != length:
            raise Refusal(400, True)
        file = self.open_to_write(call, True, update is None and bounds is None, update == ("append",))
        if update is not None or bounds is not None:
            self.seek(file, place_of(bounds, update, node))
        if body:
            self.status_of(self.store.write_bytes, file, body, call.moment)
        self.status_of(self.store.flush, file)
        return self.written(file, node is not None)

    patch = put

    def update_range(self, call, node, length):
        """The range of a PATCH, held against the body's length and the file's."""
        if call.head.one_text(b"content-type") != b"application/x-sabredav-partialupdate":
            raise Refusal(415, True)
        if length is None:
            raise Refusal(411, True)
        update = update_range_of(call.head)
        if update is None:
            raise Refusal(400, True)
        if update[0] == "from" and update[2] is not None:
            covered = update[2] - update[1] + 1
            if covered < 1 or covered != length:
                raise Refusal(416, True)
        if update[0] == "last" and node is not None and update[1] > len(node.data):
            raise Refusal(416, True)
        return update

    def open_to_write(self, call, close, truncate=False, append=False):
        """If-Match `*` creates no file, and If-None-Match `*` nothing but a new one."""
        create = tags_of(call.head, b"if-match") != "*"
        create_new = tags_of(call.head, b"if-none-match") == "*"
        try:
            return self.store.ask(self.store.open, call.path, call.moment, True, create, create_new, truncate, append)
        except StoreError as error:
            if error.name in ("NotFound", "Exists"):
                raise Refusal(412 if create_new or not create else 409, close) from None
            raise Refusal(error.status) from None

    def seek(self, file, place):
        try:
            self.store.ask(self.store.seek, file, place)
        except StoreError:
            raise Refusal(416, True) from None

    def written(self, file, was_there):
        headers = {"accept-ranges": "bytes"}
        if not was_there:
            headers["content-length"] = "0"
        node = self.store.try_ask(self.store.file_metadata, file)
        if node is not None:
            headers.update(etag=node.quoted_tag(), **{"last-modified": http_date(node.modified)})
        return Reply(204 if was_there else 201, headers)

    # MKCOL (RFC 4918, 9.3)

    def mkcol(self, call):
        node = self.store.try_ask(self.store.metadata, call.path)
        tokens = self.if_match_get_tokens(call, node)
        self.check(call, call.path, False, tokens)
        if node is None:
            self.check_parent(call, call.path, tokens)
        try:
            self.store.ask(self.store.create_dir, call.path, call.moment)
        except StoreError as error:
            raise Refusal(409 if error.name == "NotFound" else error.status) from None
        return Reply(201, {"content-location": call.path.url()} if call.path.slash else {})

    # DELETE (RFC 4918, 9.6)

    def delete(self, call):
        depth = depth_of(call.head)
        if depth == 1:
            raise Refusal(400)
        node = self.look(call.path)
        if node.is_folder:
            call.path = call.path.closed()
        tokens = self.if_match_get_tokens(call, node)
        self.check(call, call.path, True, tokens)
        self.check_parent(call, call.path, tokens)
        items = []
        if self.remove(call, call.path, node.is_folder, depth != 0, items):
            if self.locks is not None:
                self.locks.delete(call.path)
            items = [(call.path, 204)]
        return self.multi_error(call, items)

    def remove(self, call, path, is_folder, deep, items):
        """Removes what is at a path and below it, and goes on after a failure; whether all went."""
        if not is_folder:
            return self.named(items, path, self.store.remove_file, path, call.moment)
        if not deep:
            return self.named(items, path, self.store.remove_dir, path, call.moment)
        try:
            names = self.store.ask(self.store.read_dir, path)
        except StoreError as error:
            items.append((path, error.status))
            return False
        all_went = True
        for name in names:
            all_went = self.remove_member(call, path, name, items) and all_went
        return all_went and self.named(items, path, self.store.remove_dir, path, call.moment, exists=409)

    def remove_member(self, call, path, name, items):
        try:
            member = self.store.ask(self.store.metadata, path.member(name, False))
        except StoreError as error:
            items.append((path, error.status))
            return False
        return self.remove(call, path.member(name, member.is_folder), member.is_folder, True, items)

    def named(self, items, path, call, *arguments, exists=405):
        """A store call whose refusal names a path; whether it wasn't refused."""
        try:
            self.store.ask(call, *arguments)
            return True
        except StoreError as error:
            items.append((path, exists if error.name == "Exists" else error.status))
            return False

    # COPY, MOVE (RFC 4918, 9.8 and 9.9)

    def copy(self, call):
        moves = call.method == "MOVE"
        depth = depth_of(call.head) if depth_of(call.head) is not None else "infinity"
        if depth == 1 or (moves and depth == 0):
            raise Refusal(400)
        target = self.destination(call)
        node = self.look(call.path)
        if node.is_folder:
            call.path = call.path.closed()
        there = self.look_at_destination(call, target)
        tokens = self.if_match_get_tokens(call, node)
        if moves:
            self.check(call, call.path, True, tokens)
        self.check(call, target, True, tokens)
        clears = overwrite_of(call.head) and there is not None and (depth != 0 or not there.is_folder)
        if moves:
            self.check_parent(call, call.path, tokens)
        if moves or there is None or clears:
            self.check_parent(call, target, tokens)
        items = []
        if clears and not self.clear(call, target, there.is_folder, items):
            return self.multi_error(call, items)
        if moves:
            self.do_move(call, target, items)
        else:
            self.do_copy(call, call.path, target, target, depth != 0, items)
        return self.multi_error(call, items or [(call.path, 201 if there is None else 204)])

    move = copy

    def destination(self, call):
        text = destination_of(call.head)
        if text is None:
            raise Refusal(400)
        return cut_prefix(path_of(text), call.path.prefix)

    def look_at_destination(self, call, target):
        """What is at the destination: 409 without a folder above it, 412 where it is kept, 403 for the source or what is above it."""
        parent = self.store.try_ask(self.store.metadata, target.parent())
        if parent is None or not parent.is_folder:
            raise Refusal(409)
        there = self.store.try_ask(self.store.metadata, target)
        if there is not None and not overwrite_of(call.head):
            raise Refusal(412)
        if call.path.names[:len(target.names)] == target.names:
            raise Refusal(403)
        return there

    def clear(self, call, target, is_folder, items):
        went = self.remove(call, target, is_folder, True, items)
        if went and self.locks is not None:
            self.locks.delete(target)
        return went

    def do_move(self, call, target, items):
        if self.named(items, call.path, self.store.rename, call.path, target, call.moment) and self.locks is not None:
            self.locks.delete(call.path)

    def do_copy(self, call, source, top, target, deep, items):
        """Copies what is at a path and below it, and goes on after a failure; what this copy makes isn't copied again."""
        if source.names == top.names:
            return
        try:
            node = self.store.ask(self.store.metadata, source)
        except StoreError as error:
            items.append((source, error.status))
            return
        if not node.is_folder:
            self.named(items, source, self.store.copy, source, target, call.moment)
        elif self.make_copied_folder(call, target, deep, items) and deep:
            self.copy_members(call, source, top, target, items)

    def make_copied_folder(self, call, target, deep, items):
        try:
            self.store.ask(self.store.create_dir, target, call.moment)
            return True
        except StoreError as error:
            if error.name == "Exists" and not deep:
                return True
            items.append((target, error.status))
            return False

    def copy_members(self, call, source, top, target, items):
        try:
            for name in self.store.ask(self.store.read_dir, source):
                member = self.store.ask(self.store.metadata, source.member(name, False))
                paths = [path.member(name, member.is_folder) for path in (source, target)]
                self.do_copy(call, paths[0], top, paths[1], True, items)
        except StoreError as error:
            items.append((source, error.status))

    # LOCK, UNLOCK (RFC 4918, 9.10 and 9.11)

    def lock(self, call):
        if self.locks is None:
            raise Refusal(405)
        node = self.store.try_ask(self.store.metadata, call.path)
        call.folder_path_rule(node)
        if call.body is None:
            return self.refresh(call)
        deep = depth_of(call.head)
        if deep == 1:
            raise Refusal(400)
        self.if_match(call, node)
        if not isinstance(call.body, Element) or call.body.name != "lockinfo":
            raise Refusal(400)
        shared, owner = lock_request(call.body)
        if call.token is None:
            raise Refusal(500)
        if node is None:
            self.check_parent(call, call.path, if_tokens(if_of(call.head)))
        return self.grant(call, node, shared, deep != 0, owner)

    def grant(self, call, node, shared, deep, owner):
        """A lock, on an empty file where nothing was found; where that is refused the lock is taken back."""
        timeout = timeout_of(call.head)
        longest = 86400 if shared else 600
        if timeout is not None:
            timeout = longest if timeout == "infinite" else min(timeout, longest)
        lock = Lock(call.token, call.path, call.principal, owner, timeout, shared, deep)
        if not self.locks.lock(lock):
            raise Refusal(423)
        if node is None:
            try:
                self.open_to_write(call, False)
            except Refusal:
                self.locks.unlock(call.path, call.token)
                raise
        reply = self.lock_reply(call, lock, 201 if node is None else 200)
        reply.headers["lock-token"] = f"<{call.token}>"
        return reply

    def refresh(self, call):
        self.dav_condition(call)
        tokens = if_tokens(if_of(call.head))
        if len(tokens) != 1:
            raise Refusal(400)
        if not self.locks.check(call.path, call.principal, False, False, tokens):
            raise Refusal(412)
        lock = self.locks.find(call.path, tokens[0])
        if lock is None:
            raise Refusal(412)
        timeout = timeout_of(call.head)
        lock.timeout = None if timeout in (None, "infinite") else min(timeout, 600)
        return self.lock_reply(call, lock, 200)

    def lock_reply(self, call, lock, status):
        tree = made("prop", made("lockdiscovery", active_lock(lock)), attributes=DECLARES_DAV)
        return Reply(status, call.headers(content_type=XML), tree)

    def unlock(self, call):
        if self.locks is None:
            raise Refusal(405)
        token = lock_token_of(call.head)
        if token is None:
            raise Refusal(400)
        call.folder_path_rule(self.store.try_ask(self.store.metadata, call.path))
        if not self.locks.unlock(call.path, token):
            raise Refusal(409)
        return Reply(204, call.headers())

    # PROPFIND, PROPPATCH (RFC 4918, 9.1 and 9.2)

    def propfind(self, call):
        depth = depth_of(call.head)
        uncached = {"content_type": XML, "cache_control": "no-cache", "pragma": "no-cache"}
        if depth == "infinity" and call.head.one_text(b"x-litmus") is None:
            tree = made("error", made("propfind-finite-depth"), attributes=DECLARES_DAV)
            return Reply(501, call.headers(**uncached), tree)
        node = self.look(call.path)
        call.folder_path_rule(node)
        kind, asked = find_question(call.body, user_agent_of(call.head))
        writer = PropertyWriter(self, call, kind, asked)
        if depth is not None:
            writer.write(call.path, node)
        if node.is_folder and depth != 0:
            self.find_members(call.path, depth == "infinity", writer)
        namespaces = {element.namespace for element in asked}
        declared = [(f"xmlns:{prefix}", namespace) for prefix, namespace in DECLARED if namespace in namespaces]
        tree = made("multistatus", *writer.responses, attributes=DECLARES_DAV + declared)
        return Reply(207, call.headers(**uncached), tree)

    def find_members(self, path, deep, writer):
        """Each member, and with depth all below it; a listing or a member that is refused is passed over."""
        for name in self.store.try_ask(self.store.read_dir, path) or []:
            node = self.store.try_ask(self.store.metadata, path.member(name, False))
            if node is None:
                continue
            member = path.member(name, node.is_folder)
            writer.write(member, node)
            if deep and node.is_folder:
                self.find_members(member, True, writer)

    def proppatch(self, call):
        node = self.look(call.path)
        call.folder_path_rule(node)
        tokens = self.if_match_get_tokens(call, node)
        self.check(call, call.path, False, tokens)
        patches = patches_of(call.body)
        keeps = bool(self.store.try_ask(self.store.have_props))
        rules = [(rule_of_set if sets else rule_of_remove)(element, keeps) for sets, element in patches]
        fails = any(status not in (None, 200) for status in rules)
        to_store = [patch for patch, status in zip(patches, rules) if status is None]
        if not fails and to_store:
            self.status_of(self.store.patch_props, call.path, to_store)
        answers = {}
        for (_, element), status in zip(patches, rules):
            if status is not None:
                answers.setdefault(424 if fails and status == 200 else status, []).append(shown_by_name(element))
        for sets, element in to_store:
            answers.setdefault(424 if fails else 200, []).append(element if fails and sets else shown_by_name(element))
        response = made("response", made("href", call.path.url()))
        for status in sorted(answers):
            response.children.append(made("propstat", made("prop", *answers[status]), made("status", status_text(status))))
        tree = made("multistatus", response, attributes=DECLARES_DAV)
        return Reply(207, call.headers(content_type=XML), tree)

    # OPTIONS (RFC 9110, 9.3.7; RFC 4918, 10.1)

    def options(self, call):
        node = self.store.try_ask(self.store.metadata, call.path)
        if node is None and not call.path.star:
            methods = ["OPTIONS", "MKCOL", "PUT", "LOCK"]
        else:
            methods = ["HEAD", "GET", "PATCH", "PUT"] if call.path.star or not node.is_folder else []
            methods += ["OPTIONS", "PROPFIND", "COPY"]
            methods += ["MOVE", "DELETE"] if call.path.names or call.path.star else []
            methods += ["LOCK", "UNLOCK"]
        allowed = [method for method in methods if method in self.methods]
        if self.locks is None:
            allowed = [method for method in allowed if method not in ("LOCK", "UNLOCK")]
        headers = {"allow": ",".join(allowed), "content-length": "0"}
        headers.update({"dav": "1,2,3,sabredav-partialupdate", "ms-author-via": "DAV"})
        return Reply(200, headers)


def accepted_body(method, body):
    """The body as the method takes it: None for no bytes, "malformed" for bytes where a tree is wanted; 415 for what it doesn't take."""
    if body == b"":
        body = None
    if body is not None and method not in TAKE_BYTES + TAKE_TREES:
        raise Refusal(415)
    if method in TAKE_BYTES and body is not None and not isinstance(body, bytes):
        raise Refusal(415)
    if isinstance(body, Element) and body.depth() > DEEPEST_TREE:
        raise Refusal(400)
    if method in TAKE_TREES and isinstance(body, bytes):
        return "malformed"
    return body


def matches(tags, node):
    """Whether one of some tags is, compared strongly, that of what was found; `*` matches all that was found."""
    if node is None:
        return False
    return tags == "*" or (False, node.tag().encode()) in tags


def content_bounds(head, length):
    """The bounds of a Content-Range, and the body's length, which they tell where nothing else does; 416 where the two disagree."""
    bounds = content_range_of(head)
    if bounds is None:
        return None, length
    covered = bounds[1] - bounds[0] + 1
    if covered < 1 or covered > LAST_NUMBER or (length is not None and covered != length):
        raise Refusal(416, True)
    return bounds, covered


def place_of(bounds, update, node):
    if bounds is not None:
        return bounds[0]
    if update[0] == "from":
        return update[1]
    if update[0] == "last" and node is not None:
        return len(node.data) - update[1]
    return 0


# Scripts


class Script:
    def __init__(self, prefix, methods, locks, next_number, requests, alone):
        self.prefix = prefix
        self.methods = methods
        self.locks = locks
        self.next = next_number
        self.requests = requests
        self.alone = alone

    def server(self):
        return Server(self.prefix, self.methods, self.locks, self.next)


def need(condition):
    if not condition:
        raise NotScript


def no_number(_):
    raise NotScript


def other_number(text):
    """A number that a script has no use for. It may stand where it doesn't count, unless it is past every float."""
    need(abs(float(text)) != float("inf"))
    return float(text)


def plain_number(text):
    """Plain digits within 64 bits are whole numbers, nothing else is."""
    if text.startswith("-") or len(text) > 20 or int(text) > LAST_NUMBER:
        return other_number(text)
    return int(text)


def last_values(pairs):
    """Of a member that comes twice the last one counts; the others have to be texts that can be written, too."""
    members = dict(pairs)
    if len(members) < len(pairs):
        json.dumps(pairs, ensure_ascii=False).encode("utf-8")
    return members


def members_of(value, names):
    need(isinstance(value, dict) and set(value) <= set(names))
    return value


def nesting(text):
    """How deep lists and objects are nested in some JSON."""
    deepest = depth = 0
    for sign in re.sub(r'"(?:[^"\\]|\\.)*"', "", text, flags=re.DOTALL):
        if sign in "[{":
            depth += 1
            deepest = max(deepest, depth)
        elif sign in "]}":
            depth -= 1
    return deepest


def read_json(data):
    try:
        text = data.decode("utf-8")
        need(nesting(text) <= DEEPEST_SCRIPT and not text.startswith("\ufeff"))
        value = json.loads(text, object_pairs_hook=last_values, parse_int=plain_number, parse_float=other_number, parse_constant=no_number)
        json.dumps(value, ensure_ascii=False).encode("utf-8")
        return value
    except (ValueError, RecursionError):
        raise NotScript from None


def read_script(data):
    need(len(data) <= LONGEST_SCRIPT)
    value = members_of(read_json(data), ("prefix", "methods", "locks", "next", "requests", "alone"))
    need("requests" in value and isinstance(value["requests"], list))
    requests = [read_request(request) for request in value["requests"]]
    locks = value.get("locks", True)
    need(isinstance(locks, bool))
    prefix = read_text(value.get("prefix", "")).encode()
    need(is_prefix(prefix))
    alone = None
    if "alone" in value:
        alone = read_number(value["alone"])
        need(alone < len(requests) and requests[alone].token is not None)
    return Script(prefix, read_methods(value), locks, read_number(value.get("next", 1)), requests, alone)


def is_prefix(prefix):
    """A prefix is empty, or a path that is written as it is."""
    if not prefix:
        return True
    try:
        return prefix.startswith(b"/") and path_of(prefix).behind() == prefix
    except Refusal:
        return False


def read_methods(value):
    if "methods" not in value:
        return None
    need(isinstance(value["methods"], list))
    names = [read_text(name) for name in value["methods"]]
    need(all(name.isascii() and name.upper() in KNOWN for name in names))
    return [name.upper() for name in names]


def read_text(value):
    need(isinstance(value, str))
    return value


def read_text_or_null(value):
    return None if value is None else read_text(value)


def read_number(value):
    need(isinstance(value, int) and not isinstance(value, bool))
    return value


def read_hex(value):
    text = read_text(value)
    need(len(text) % 2 == 0 and re.fullmatch(r"[0-9A-Fa-f]*", text))
    return bytes.fromhex(text)


def read_request(value):
    members_of(value, ("head", "body", "principal", "moment", "token", "refuse"))
    need("head" in value)
    head = value["head"]
    head = head.encode() if isinstance(head, str) else read_form(head, ("hex",))
    moment = read_number(value.get("moment", 0))
    need(moment <= LAST_MOMENT)
    token = read_text_or_null(value.get("token"))
    need(token is None or is_grant_token(token))
    refuse = value.get("refuse", [])
    need(isinstance(refuse, list) and all(name is None or name in STATUS_OF for name in map(hashable, refuse)))
    return Request(head, read_body(value.get("body")), read_text_or_null(value.get("principal")), moment, token, refuse)


def hashable(value):
    need(value is None or isinstance(value, str))
    return value


def is_grant_token(text):
    """A token with which a lock may be granted: it can stand in an If, and is none of WebDAV's own."""
    return bool(re.fullmatch(r'[!#-\'*-;=?-Z\\^-z|~]+', text)) and not text.startswith("DAV:")


def read_form(value, names):
    """The one member of a head or body that is an object."""
    members_of(value, names)
    need(len(value) == 1)
    (name, inner), = value.items()
    if name == "hex":
        return read_hex(inner)
    return read_text(inner).encode() if name == "text" else read_element(inner)


def read_body(value):
    if value is None or value == "malformed":
        return value
    return read_form(value, ("text", "hex", "element"))


def read_element(value):
    members_of(value, ("name", "prefix", "namespace", "attributes", "children"))
    need("name" in value)
    attributes = value.get("attributes", [])
    need(isinstance(attributes, list) and all(isinstance(pair, list) and len(pair) == 2 for pair in attributes))
    pairs = [(read_text(name), read_text(text)) for name, text in attributes]
    children = value.get("children", [])
    need(isinstance(children, list))
    children = [child if isinstance(child, str) else read_element(child) for child in children]
    prefix, namespace = (read_text_or_null(value.get(name)) for name in ("prefix", "namespace"))
    return Element(read_text(value["name"]), prefix, namespace, pairs, children)


def names_token(request, token):
    """Whether a request names a token, in an If that can be read or as its Lock-Token. Bytes that are no head name nothing."""
    try:
        head = read_head(request.head)
    except Refusal:
        return False
    return token in if_tokens(if_of(head)) or lock_token_of(head) == token


def lines_of(script):
    """The lines that a script writes: the reply to each request, and then those of the run alone."""
    server = script.server()
    for request in script.requests:
        yield server.play(request).line()
    if script.alone is not None:
        yield printed({"alone": script.alone})
        server = script.server()
        for request in script.requests[:script.alone + 1]:
            server.play(request)
        first = script.requests[script.alone]
        for request in script.requests[script.alone + 1:]:
            if request.principal == first.principal and names_token(request, first.token):
                yield server.play(request).line()


def calls_of(server, request):
    """How many store calls a request would make, if none were refused."""
    trial = copy.deepcopy(server)
    trial.play(Request(request.head, request.body, request.principal, request.moment, request.token))
    return trial.store.calls


def main():
    if len(sys.argv) > 1 and sys.argv[1].startswith("-"):
        print(__doc__)
        return 64
    data = open(sys.argv[1], "rb").read() if len(sys.argv) > 1 else sys.stdin.buffer.read()
    try:
        script = read_script(data)
    except NotScript:
        print("oracle: not a script", file=sys.stderr)
        return 1
    for line in lines_of(script):
        sys.stdout.buffer.write(line.encode() + b"\n")
    return 0


if __name__ == "__main__":
    sys.exit(main())
