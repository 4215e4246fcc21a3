"""What a live server runs of a request, what it refuses to run, and what it shows of the machine's reply, a second time.

usage: no program; `kept(head)`, `refusal(request, server)` and `shown(request, reply, moment, server)` go around a server of tools/oracle/oracle.py

Nothing here is taken from the program: it is written from docs/SERVE.md ("Parts, dates, types, and what isn't there"), RFC 9110 (sections 8.3,
13 and 14), RFC 4918 (9.1, 10.4 and 14), RFC 4331, RFC 7240 and RFC 8144 (2.1). Each rule stands in plain words where it is applied.
"""
import contextlib
import datetime
import re
import sys
import urllib.parse

from serving import REFUSALS, TOP

sys.path.append(f"{TOP}/tools")
import loading  # noqa: E402, F401
import oracle  # noqa: E402

OCTETS = "application/octet-stream"
# Types of the registry of IANA by the extensions that its entries name, but for those of which a trial has no file.
TYPES = {
    "txt": "text/plain", "html": "text/html", "htm": "text/html", "css": "text/css", "svg": "image/svg+xml", "png": "image/png",
    "jpg": "image/jpeg", "gif": "image/gif", "mp3": "audio/mpeg", "mp4": "video/mp4", "pdf": "application/pdf", "zip": "application/zip",
    "odt": "application/vnd.oasis.opendocument.text", "json": "application/json", "xml": "application/xml"}
LEFT_OUT = (b"authorization", b"proxy-authorization", b"cookie", b"host", b"transfer-encoding")
MAY_CHANGE = (b"PUT", b"PATCH", b"PROPPATCH", b"MKCOL", b"COPY", b"MOVE", b"DELETE", b"LOCK", b"UNLOCK")
MOST_BODY = 256 << 20  # what a file may have where --body isn't told
MOST_NAMES = 1000


def read(data):
    """The head in some bytes; None where they are none."""
    try:
        return oracle.read_head(data)
    except oracle.Refusal:
        return None


# What is run of a head


def kept(data):
    """A head without the fields of the connection and of who asks, its addresses as whole URLs, and of a PROPFIND with a Depth."""
    head = read(data)
    if head is None:
        return data
    fields = [(name, addressed(value) if name == b"if" else value) for name, value in head.fields if name not in LEFT_OUT]
    if head.method == b"PROPFIND" and not head.has(b"depth"):
        fields.append((b"depth", b"1"))
    lines = b"".join(name + b": " + value + b"\r\n" for name, value in fields)
    return head.method + b" " + head.target + b" HTTP/1.1\r\n" + lines + b"\r\n"


def addressed(value):
    """An If in which each address that is a path is a whole URL (RFC 4918, 10.4.2); between quotes nothing is an address."""
    made, is_quoted = b"", False
    for place in range(len(value)):
        sign = value[place:place + 1]
        made += sign
        if sign == b'"':
            is_quoted = not is_quoted
        elif sign == b"<" and not is_quoted and value[place + 1:place + 2] == b"/":
            made += b"http://localhost"
    return made


# What isn't run


def refusal(request, server):
    """The status with which a request isn't run, or None: 413 comes before 400, and 400 before 412."""
    head = read(request.head)
    if head is None:
        return None
    if begins_past(head):
        return 413
    if head.method == b"PROPFIND" and len(asked_names(request.body)) > MOST_NAMES:
        return 400
    if head.method not in MAY_CHANGE:
        return None
    if means_nothing(head):
        return 400
    return 412 if is_stale(head, server, request.moment) else None


def begins_past(head):
    """Whether a PUT or PATCH begins to write past what a file may have, by the place that its Content-Range or its X-Update-Range names."""
    if head.method not in (b"PUT", b"PATCH"):
        return False
    try:
        ranged = oracle.content_range_of(head)
    except oracle.Refusal:
        ranged = None
    update = oracle.update_range_of(head)
    firsts = ([ranged[0]] if ranged else []) + ([update[1]] if update and update[0] == "from" else [])
    return any(first > MOST_BODY for first in firsts)


def would_swell(body):
    """Whether as many names as a body may have, each with what stands between two quotation marks of it, come to more than 32 MiB."""
    names = body.count(b"<") + body.count(b"=")
    for place in range(len(body)):
        if body[place] in b"'\"":
            end = body.find(body[place:place + 1], place + 1)
            if ((len(body) if end < 0 else end) - place - 1) * names > 32 << 20:
                return True
    return False


def means_nothing(head):
    """Whether a condition is there and can't be read: an If (RFC 4918, 10.4), an If-Match or an If-None-Match (RFC 9110, 13.1); or a Content-Range
    that names no bytes (RFC 9110, 14.5)."""
    if names_no_bytes(head.values(b"content-range")):
        return True
    if head.has(b"if") and oracle.if_of(head) is None:
        return True
    return any(head.has(name) and oracle.tags_of(head, name) is None for name in (b"if-match", b"if-none-match"))


def names_no_bytes(values):
    """Whether a Content-Range is there that can't be read, or names no bytes that a file can have (RFC 9110, 14.4)."""
    if not values:
        return False
    found = re.fullmatch(rb"bytes ([0-9]+)-([0-9]+)/([0-9]+|\*)", values[0]) if len(values) == 1 else None
    if not found or any(part != b"*" and oracle.number(part) is None for part in found.groups()):
        return True
    first, last, length = found.groups()
    return int(last) < int(first) or length != b"*" and int(length) <= int(last)


def is_stale(head, server, moment):
    """Whether what is at the target was changed after If-Unmodified-Since, which If-Match puts out of use (RFC 9110, 13.1.4)."""
    date = date_in(head.values(b"if-unmodified-since"), moment)
    if date is None or head.has(b"if-match"):
        return False
    try:
        node = server.store.nodes.get(oracle.target_path(head, server.prefix).names)
    except oracle.Refusal:
        return False
    return node is not None and node.modified > date


# Dates (RFC 9110, 5.6.7)


DAYS = ["Monday", "Tuesday", "Wednesday", "Thursday", "Friday", "Saturday", "Sunday"]
MONTHS = ["Jan", "Feb", "Mar", "Apr", "May", "Jun", "Jul", "Aug", "Sep", "Oct", "Nov", "Dec"]
DAY, SHORT, MONTH = "|".join(DAYS), "|".join(day[:3] for day in DAYS), "|".join(MONTHS)
TIME = r"(?P<hour>\d\d):(?P<minute>\d\d):(?P<second>\d\d)"
FORMS = [re.compile(form, re.ASCII) for form in (
    rf"(?:{SHORT}), (?P<day>\d\d) (?P<month>{MONTH}) (?P<year>\d{{4}}) {TIME} GMT",
    rf"(?:{DAY}), (?P<day>\d\d)-(?P<month>{MONTH})-(?P<short>\d\d) {TIME} GMT",
    rf"(?:{SHORT}) (?P<month>{MONTH}) (?P<day>\d\d| \d) {TIME} (?P<year>\d{{4}})")]


def date_in(values, moment):
    """The seconds of the one date in a field; None where it has none, or several, or the field isn't there once."""
    texts = [value.decode("latin-1") for value in values]
    found = [match for match in (form.fullmatch(texts[0]) for form in FORMS) if match] if len(texts) == 1 else []
    if not found:
        return None
    parts = found[0].groupdict()
    year = int(parts["year"]) if parts.get("year") else near_year(int(parts["short"]), moment)
    numbers = [year, MONTHS.index(parts["month"]) + 1, *(int(parts[name]) for name in ("day", "hour", "minute", "second"))]
    try:
        seconds = round((datetime.datetime(*numbers) - datetime.datetime(1970, 1, 1)).total_seconds())
    except ValueError:
        return None
    return seconds if seconds >= 0 else None  # docs/DEVIATIONS.md


def near_year(digits, moment):
    """The year of two digits: none that is more than fifty years from now on."""
    now = oracle.date_of(moment).year
    year = now - now % 100 + digits
    return year - 100 if year > now + 50 else year


# Refusals


def in_words(method, status, fields, body):
    """Status, fields and body of a response, with the words of its status where it has no body of its own; one to HEAD that tells of a content
    stays, and else has what a GET would have, but for the body."""
    is_head = method == b"HEAD"
    if body or status not in REFUSALS or is_head and fields.keys() & {"content-type", "content-length"}:
        return [status, fields, body]
    text = REFUSALS[status]
    return [status, {**fields, "content-type": "text/plain; charset=utf-8", "content-length": str(len(text))}, "" if is_head else text.hex()]


def conflicting(request, head, path, server):
    """The first lock that keeps a request out: where it changes something, by the tokens that its If submits (RFC 4918, 7.4, 7.5 and 9.10.3)."""
    method, tokens = head.method, [] if head.method == b"LOCK" else oracle.if_tokens(oracle.if_of(head))
    places = [] if method == b"COPY" else [(path, method in (b"DELETE", b"MOVE", b"LOCK")), (path.parent(), False)]
    if method in (b"COPY", b"MOVE"):
        with contextlib.suppress(oracle.Refusal):
            target = oracle.cut_prefix(oracle.path_of(oracle.destination_of(head) or b""), path.prefix)
            places += [(target, True), (target.parent(), False)]

    def held(lock):
        return lock.token in tokens and lock.principal == request.principal

    for place, deep in places:
        covering = server.locks.covering(place.names)
        for lock in server.locks.list:
            covers = lock in covering and (not lock.shared or not any(held(other) for other in covering))
            if not held(lock) and (covers or (deep and lock.at_or_below(place.names))):
                return lock
    return None


def locked(request, server):
    """The error of a request that is answered 423: which lock keeps it out (RFC 4918, 11.3 and 16); None where none is found."""
    head = read(request.head)
    lock = conflicting(request, head, oracle.target_path(head, server.prefix), server)
    if lock is None:
        return None
    name = "no-conflicting-lock" if head.method == b"LOCK" else "lock-token-submitted"
    return oracle.made("error", oracle.made(name, oracle.made("href", lock.path.url())), attributes=oracle.DECLARES_DAV)


# Files


def shown(request, reply, moment, server):
    """What is sent of the machine's reply to a request that came at a moment. How many bytes are used, and can still be stored,
    isn't known here: `?`."""
    head = read(request.head)
    if head is None:
        return reply
    if head.method in (b"GET", b"HEAD") and reply.status == 200 and "last-modified" in reply.headers:
        return shown_file(head, reply, moment)
    if reply.status == 423 and not reply.body:
        error = locked(request, server)
        fields = {name: value for name, value in reply.headers.items() if name != "content-length"}
        return oracle.Reply(423, {**fields, "content-type": oracle.XML}, error) if error else reply
    if head.method == b"PROPFIND" and reply.status == 501:
        return oracle.Reply(403, reply.headers, reply.body)
    if head.method == b"PROPFIND" and reply.status == 207:
        asked, prefers = asked_names(request.body), prefers_minimal(head.values(b"prefer"))
        # (which prefixes clients gave their properties isn't known here: how many bytes are used `quota` sees)
        room = [(name, "?") for name in ("quota-available-bytes", "quota-used-bytes") if (oracle.DAV, name) in asked]
        is_minimal = prefers or is_brief(head.values(b"brief"))
        headers = {**reply.headers, "preference-applied": "return=minimal"} if prefers else reply.headers
        return oracle.Reply(207, headers, shown_listing(reply.body, asked, room, is_minimal))
    return reply


def shown_file(head, reply, moment):
    """A file as a whole, a part of it, or what came of the conditions (RFC 9110, 13.2.2), which the machine judged in part."""
    tag = reply.headers["etag"]
    modified = date_in([reply.headers["last-modified"].encode()], moment)
    before = date_in(head.values(b"if-unmodified-since"), moment)
    if before is not None and not head.has(b"if-match") and modified > before:
        return oracle.Reply(412, {"content-length": "0"} if head.method == b"GET" else {})
    if is_unchanged(head, tag, modified, moment):
        return oracle.Reply(304, {"etag": tag})
    kind = type_at(head.target)
    headers = {**reply.headers, "content-type": kind, "accept-ranges": "bytes"}
    if kind != OCTETS:
        headers["x-content-type-options"] = "nosniff"
    if acts(kind):
        headers["content-security-policy"] = "sandbox"
    size = int(reply.headers["content-length"])
    part = part_of(head, size) if head.method == b"GET" and may_be_part(head, tag, modified, moment) else None
    if part is None:
        return oracle.Reply(200, headers, reply.body)
    if part == "none":
        return oracle.Reply(416, {"content-range": f"bytes */{size}", "content-length": "0"})
    first, last = part
    headers.update({"content-range": f"bytes {first}-{last}/{size}", "content-length": str(last - first + 1)})
    return oracle.Reply(206, headers, (reply.body or b"")[first:last + 1])


def is_unchanged(head, tag, modified, moment):
    """Whether the client has the file already: by its tag (13.1.2), or else by the date (13.1.3)."""
    if head.has(b"if-none-match"):
        return names_tag(head, tag)
    since = date_in(head.values(b"if-modified-since"), moment)
    return since is not None and modified <= since


def names_tag(head, tag):
    """Whether If-None-Match names a tag by the weak comparison (8.8.3.2): it is cut at each comma, and what is no tag counts for nothing."""
    tags = oracle.tags_of(head, b"if-none-match")
    return tags == "*" or oracle.entity_tag(tag.encode())[1] in [text for _, text in tags or []]


def may_be_part(head, tag, modified, moment):
    """Whether If-Range lets a part be sent (13.1.5): by the very tag, or by the date of the last change, if that second is over."""
    values = head.values(b"if-range")
    if not values:
        return True
    if values == [tag.encode()]:
        return True
    return date_in(values, moment) == modified and modified < moment


RANGE = re.compile(rb"bytes=(?:([0-9]+)-([0-9]*)|-([0-9]+))")


def part_of(head, size):
    """The first and the last byte of the one range that is asked for (14.1.2); "none" past the end, None where the whole is sent."""
    values = head.values(b"range")
    found = RANGE.fullmatch(values[0]) if len(values) == 1 else None
    if not found or any(number and int(number) > oracle.LAST_NUMBER for number in found.groups()):
        return None
    first, last, suffix = (int(number) if number else None for number in found.groups())
    if suffix == 0:
        return "none"
    if suffix is not None:
        return (max(size - suffix, 0), size - 1) if size else None
    if last is not None and last < first:
        return None
    if first >= size:
        return "none"
    return first, size - 1 if last is None else min(last, size - 1)


def type_at(address):
    """The type of a file by what is behind the last dot of its name, in letters of either case (8.3). An address with a slash at its end
    is that of a folder (RFC 4918, 5.2), so it has no such name; escapes are read where they give text (docs/SERVE.md)."""
    name = address.partition(b"?")[0].rpartition(b"/")[2]
    try:
        name = urllib.parse.unquote_to_bytes(name).decode()
    except UnicodeDecodeError:
        name = name.decode("latin-1")
    _, dot, extension = name.rpartition(".")
    return TYPES.get(extension.lower(), OCTETS) if dot and name not in (".", "..") else OCTETS


def acts(kind):
    """Whether a browser runs what is in a document: of HTML, or of XML (RFC 7303, 4.2)."""
    return kind == "text/html" or kind.endswith(("/xml", "+xml"))


# Listings


def asked_names(body):
    """The names that a PROPFIND asks for, as they come; none where it asks for all properties, or for all names (RFC 4918, 14.20)."""
    if not isinstance(body, oracle.Element) or (body.name, body.namespace) != ("propfind", oracle.DAV):
        return []
    questions = [child for child in body.elements() if child.name in ("prop", "allprop", "propname")]
    if not questions or questions[0].name != "prop":
        return []
    return [element.key() for element in questions[0].elements()]


def name_in(element):
    """The name of a property in a reply: without a namespace of its own it is in that of its prefix."""
    spaces = {prefix: space for space, prefix in oracle.PREFIX_OF.items()}
    return element.namespace or spaces.get(element.prefix, ""), element.name


def prefers_minimal(values):
    """Whether Prefer asks for `return=minimal` (RFC 7240, 2 and 4.2). The first `return` counts; values with quoted strings don't."""
    wishes = [wish for value in values if b'"' not in value and all(byte == 9 or 32 <= byte < 127 for byte in value)
              for wish in value.decode().lower().split(",")]
    for wish in wishes:
        name, _, value = wish.partition(";")[0].partition("=")
        if name.strip() == "return":
            return value.strip() == "minimal"
    return False


def is_brief(values):
    """Whether Brief is `t`, by which Microsoft's clients don't want to be told what isn't there."""
    return len(values) == 1 and values[0].lower() == b"t"


def with_room(children, room):
    """The children of a response about a folder, which tells the room too: where it tells what is there, if it does (RFC 4331, 3 and 4)."""
    there = {name_in(element) for child in children if child.name == "propstat" for element in child.elements()[0].elements()}
    more = [oracle.made(name, value) for name, value in room if (oracle.DAV, name) not in there]
    if not more:
        return children
    found = [place for place, child in enumerate(children) if child.name == "propstat" and child.elements()[1].text() == oracle.status_text(200)]
    if not found:
        return [*children, oracle.made("propstat", oracle.made("prop", *more), oracle.made("status", oracle.status_text(200)))]
    prop, status = children[found[0]].elements()
    told = children[found[0]].with_children([prop.with_children([*prop.children, *more]), status])
    return [*children[:found[0]], told, *children[found[0] + 1:]]


def shown_listing(told, asked, room, is_minimal):
    """A multistatus in which each response has types, usual names, a folder's the room that is asked for, and at its end, under 404, the
    names that it doesn't tell (9.1). A minimal one leaves these out, and has at least an empty `propstat` (RFC 8144, 2.1)."""
    responses = []
    for response in told.elements():
        href = next(child.text() for child in response.elements() if child.name == "href")
        children = with_room(response.elements(), room) if href.endswith("/") else response.elements()
        children = [shown_propstat(child, href) if child.name == "propstat" else child for child in children]
        properties = [element for child in children if child.name == "propstat" for element in child.elements()[0].elements()]
        there = {name_in(element) for element in properties}
        missing = [name for name in dict.fromkeys(asked) if name not in there]
        if is_minimal and not any(child.name == "propstat" for child in children):
            children.append(oracle.made("propstat", oracle.made("prop"), oracle.made("status", oracle.status_text(200))))
        elif missing and not is_minimal:
            names = [oracle.Element(name, None, space or None) for space, name in missing]
            status = oracle.made("status", oracle.status_text(404))
            children.append(oracle.made("propstat", oracle.made("prop", *names), status))
        responses.append(response.with_children(children))
    return told.with_children(responses)


def shown_propstat(propstat, href):
    parts = [part.with_children([shown_property(element, href) for element in part.elements()]) if part.name == "prop" else part
             for part in propstat.elements()]
    return propstat.with_children(parts)


def shown_property(element, href):
    """A property with its usual name and without attributes, where clients look for its prefix; and the type of a file by its name."""
    if name_in(element) in ((oracle.DAV, "resourcetype"), (oracle.DAV, "current-user-principal")):
        return oracle.Element(element.name, "D", oracle.DAV, (), element.children)
    if name_in(element) == (oracle.DAV, "getcontenttype") and element.text() == OCTETS:
        return element.with_children([type_at(href.encode())])
    return element
