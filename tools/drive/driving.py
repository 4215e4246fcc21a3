"""What tools/drive/drive needs: requests of a script as a live server gets them, replies as they are compared, and what a difference means.

A script says what the oracle is asked; a live server has other tags, tokens and dates, below another path. `Names` learns which of the server's
stands for which of the oracle's, from replies to the same request, and changes heads by that in either direction.
"""
import http.client
import io
import re
import socket
import time
import urllib.parse

import oracle
import xml_trees

DAV = "DAV:"
MOST_BYTES = 1 << 26
# The fields of a head that go with a connection, and not with what is asked.
OF_THE_CONNECTION = {b"host", b"connection", b"keep-alive", b"content-length", b"transfer-encoding", b"expect", b"te", b"upgrade", b"proxy-connection"}
# The fields that have tags, tokens, dates or paths.
NAMING = {b"if", b"if-match", b"if-none-match", b"if-range", b"lock-token"}
DATING = {b"if-modified-since", b"if-unmodified-since", b"if-range"}
# Properties that a server has of itself: which, and with which value, is its own matter (RFC 4918, 9.1 and 15).
OWN = {"creationdate", "displayname", "current-user-principal", "owner", "executable", "getcontenttype", "getetag", "getlastmodified", "lockdiscovery", "supportedlock", "getcontentlanguage", "quota-used-bytes", "quota-available-bytes"}


class NotSent(Exception):
    """Why a request of a script can't be sent to a live server."""


class NoAnswer(Exception):
    """What came instead of an answer."""


class Head:
    """The method, the target and the fields of a head."""

    def __init__(self, text):
        line, *fields = text.split(b"\r\n\r\n")[0].split(b"\r\n")
        words = line.split(b" ")
        if len(words) != 3 or not words[2].startswith(b"HTTP/") or not re.fullmatch(rb"[A-Za-z]+", words[0]) or not text.endswith(b"\r\n\r\n"):
            raise NotSent("its head is none that a client sends")
        self.method, self.target = words[0].decode(), words[1]
        self.fields, self.removes = [], False
        for field in fields:
            name, colon, value = field.partition(b":")
            if not colon or not re.fullmatch(rb"[!#$%&'*+.^_`|~0-9A-Za-z-]+", name):
                raise NotSent("its head has a field that no client sends")
            self.fields.append((name, value.strip(b" \t")))

    def value(self, name):
        return next((value for field, value in self.fields if field.lower() == name), None)


class Answer:
    """A status, the fields of a head by their names in small letters, and a body."""

    def __init__(self, status, headers, body):
        self.status, self.headers, self.body = status, headers, body


class Site:
    """A server at a URL. Each request has a connection, and a time, of its own."""

    def __init__(self, url, seconds, logins=()):
        told = urllib.parse.urlsplit(url)
        if told.scheme != "http" or not told.hostname or told.query or told.fragment:
            raise ValueError(f"{url} isn't a URL as http://host:port/path/ (TLS is for a proxy)")
        self.address = (told.hostname, told.port or 80)
        self.host = told.netloc.rpartition("@")[2].encode()
        self.path = told.path.rstrip("/").encode()
        self.seconds = seconds
        self.logins = dict(logins)

    def reach(self):
        """Sees that somebody listens there."""
        try:
            socket.create_connection(self.address, timeout=self.seconds).close()
        except TimeoutError:
            raise NoAnswer(f"nobody answers within {self.seconds:g} seconds") from None
        except OSError as error:
            raise NoAnswer(f"nobody answers: {error.strerror or error}") from None

    def ask(self, method, target, fields, body):
        """The answer to a request, within the time."""
        end = time.monotonic() + self.seconds
        head = b"%s %s HTTP/1.1\r\nHost: %s\r\nConnection: close\r\n" % (method.encode(), target, self.host)
        head += b"".join(b"%s: %s\r\n" % field for field in fields)
        if body or method in ("PUT", "PATCH", "POST"):
            head += b"Content-Length: %d\r\n" % len(body)
        came = b""
        try:
            with socket.create_connection(self.address, timeout=self.seconds) as link:
                link.settimeout(self.seconds)
                try:
                    link.sendall(head + b"\r\n" + body)
                except (BrokenPipeError, ConnectionResetError):
                    pass  # it may have answered by the head alone
                while True:
                    answer = answer_in(came, method, False)
                    if answer:
                        return answer
                    left = end - time.monotonic()
                    if left <= 0:
                        raise TimeoutError
                    link.settimeout(left)
                    piece = link.recv(1 << 16)
                    if not piece:
                        break
                    came += piece
                    if len(came) > MOST_BYTES:
                        raise NoAnswer(f"more than {MOST_BYTES} bytes")
        except TimeoutError:
            raise NoAnswer(f"no {'whole ' if came else ''}answer within {self.seconds:g} seconds") from None
        except OSError as error:
            raise NoAnswer(f"no answer: {error.strerror or error}") from None
        answer = answer_in(came, method, True)
        if not answer:
            raise NoAnswer("it closed the connection" + (" within its answer" if came else " without an answer"))
        return answer


def answer_in(came, method, is_all):
    """The answer in these bytes, behind what is for the moment alone (1xx); None as long as it isn't whole."""
    while True:
        head, end, rest = came.partition(b"\r\n\r\n")
        found = re.match(rb"HTTP/1\.[01] (\d\d\d)", head)
        if not end:
            return None
        if not found:
            raise NoAnswer("what it answers is no HTTP")
        if found[1][:1] != b"1":
            break
        came = rest
    status = int(found[1])
    fields = http.client.parse_headers(io.BytesIO(head.partition(b"\r\n")[2] + b"\r\n\r\n"))
    headers = {name.lower(): value for name, value in fields.items()}
    if method == "HEAD" or status in (204, 304):
        return Answer(status, headers, b"")
    if "chunked" in headers.get("transfer-encoding", "").lower():
        rest = chunks_in(rest)
        return None if rest is None else Answer(status, headers, rest)
    length = headers.get("content-length")
    if length is not None and len(rest) >= int(length):
        return Answer(status, headers, rest[:int(length)])
    return Answer(status, headers, rest) if is_all and length is None else None


def chunks_in(rest):
    """The body in these chunks (RFC 9112, 7.1); None as long as it isn't whole."""
    body = b""
    while True:
        line, end, rest = rest.partition(b"\r\n")
        if not end:
            return None
        try:
            size = int(line.partition(b";")[0], 16)
        except ValueError:
            raise NoAnswer("its chunks are none of HTTP") from None
        if len(rest) < size + 2:
            return None
        if size == 0:
            return body
        body, rest = body + rest[:size], rest[size + 2:]


class Names:
    """Which tags, tokens and dates of one side stand for which of the other."""

    def __init__(self):
        self.of = {}

    def learn(self, one, other):
        if one and other:
            self.of[one.encode()] = other.encode()

    def changed(self, value):
        """A field's value with the other side's tags and tokens: each that is known, in one pass."""
        known = sorted(self.of, key=len, reverse=True)
        if not known:
            return value
        return re.sub(b"|".join(map(re.escape, known)), lambda found: self.of[found[0]], value)


class Place:
    """Where a script's paths are on a site: its root is the folder `base`."""

    def __init__(self, site, base, prefix=b""):
        self.site, self.base, self.prefix = site, base, prefix

    def target(self, text):
        if text == b"*":
            return text
        behind = re.sub(rb"^[A-Za-z][A-Za-z0-9+.-]*://[^/?#]*", b"", text) or b"/"
        if not behind.startswith(b"/"):
            raise NotSent("its target is no path")
        if not (behind + b"/").startswith(self.prefix + b"/"):
            raise NotSent("its target is outside of the script's prefix")
        return self.base + behind[len(self.prefix):]

    def url(self, text):
        return b"http://" + self.site.host + self.target(text)

    def fields(self, head, names):
        """The fields of a head as the server gets them."""
        for name, value in head.fields:
            low = name.lower()
            if low in OF_THE_CONNECTION:
                continue
            if low == b"destination":
                value = self.url(value)
            elif low == b"if":
                value = re.sub(rb"<(/[^>]*|https?://[^>]*)>", lambda found: b"<" + self.url(found[1]) + b">", value)
            if low in NAMING or low in DATING:
                value = names.changed(value)
            yield name, value

    def name(self, href):
        """A path of a reply as the script has it, without a slash at its end."""
        path = urllib.parse.urlsplit(href.strip()).path if "://" in href else href.strip()
        path = urllib.parse.unquote_to_bytes(path)
        base = urllib.parse.unquote_to_bytes(self.base)
        return (path[len(base):] if (path + b"/").startswith(base + b"/") else b"?" + path).rstrip(b"/") or b"/"


def element_of(body):
    """The element of a reply of the oracle or of a server; None of what is no XML."""
    if isinstance(body, oracle.Element):
        return oracle_tree(body.printed())
    try:
        return xml_trees.tree_of(body.decode())
    except (UnicodeDecodeError, xml_trees.Malformed):
        return None


def oracle_tree(element):
    """The oracle's elements without a namespace are those of their prefixes, as the server writes them."""
    namespace = element["namespace"]
    if namespace is None and element["prefix"]:
        namespace = xml_trees.KNOWN.get(element["prefix"])
    children = [child if isinstance(child, str) else oracle_tree(child) for child in element["children"]]
    return {**element, "namespace": namespace, "children": children}


def is_named(element, name, namespace=DAV):
    return not isinstance(element, str) and element["name"] == name and element["namespace"] == namespace


def within(element, name):
    return [child for child in element["children"] if is_named(child, name)]


def text_in(element):
    return "".join(child if isinstance(child, str) else text_in(child) for child in element["children"])


def shape(element):
    """An element's names and texts, without prefixes, and blanks at the ends of texts."""
    children = [child.strip() if isinstance(child, str) else shape(child) for child in element["children"]]
    return (element["namespace"], element["name"], tuple(child for child in children if child))


def status_in(element):
    found = re.search(r" (\d\d\d)", text_in(element))
    return int(found[1]) if found else 0


class Told:
    """What a multistatus tells: for each path its status, and its properties, each with status and element."""

    def __init__(self, root, name_of):
        self.statuses, self.properties = {}, {}
        for response in within(root, "response"):
            status = [status_in(it) for it in within(response, "status")]
            for href in within(response, "href"):
                path = name_of(text_in(href))
                self.statuses[path] = status[0] if status else None
                told = self.properties.setdefault(path, {})
                for stat in within(response, "propstat"):
                    code = status_in(within(stat, "status")[0]) if within(stat, "status") else 0
                    for prop in within(stat, "prop"):
                        told.update({(it["namespace"], it["name"]): (code, it) for it in prop["children"] if not isinstance(it, str)})

    @staticmethod
    def read(body, name_of):
        root = element_of(body) if body else None
        return Told(root, name_of) if root is not None and is_named(root, "multistatus") else None


def tokens_in(body):
    """The tokens of the locks that a reply tells, in their order."""
    root = element_of(body) if body else None
    found = []

    def look(element):
        for child in element["children"]:
            if not isinstance(child, str):
                if is_named(child, "locktoken"):
                    found.append(text_in(child).strip())
                look(child)
    if root is not None:
        look(root)
    return found


def compared(asked, wanted, answer, place):
    """In what an answer differs from the oracle's, a word for what and the text for each."""
    if wanted.status != answer.status:
        yield "status", f"{answer.status}, the oracle {wanted.status}"
        return
    if asked.method == "GET" and wanted.status == 200 and (wanted.body or b"") != answer.body:
        yield "body", f"{len(answer.body)} bytes, the oracle {len(wanted.body or b'')} other ones"
    if asked.method in ("GET", "HEAD", "PUT") and "etag" in wanted.headers and "etag" not in answer.headers:
        yield "no tag", "no ETag"
    if asked.method == "LOCK" and "lock-token" in wanted.headers and "lock-token" not in answer.headers:
        yield "no token", "no Lock-Token"
    if asked.method == "LOCK" and wanted.status in (200, 201) and not tokens_in(answer.body):
        yield "no lockdiscovery", "no lockdiscovery in its body"
    if asked.method == "OPTIONS":
        classes = {it.strip() for it in answer.headers.get("dav", "").split(",")}
        if not {"1", "2"} <= classes:
            yield "classes", f"DAV: {answer.headers.get('dav', 'missing')}"
    if wanted.status == 207:
        yield from compared_trees(asked, wanted, answer, place)


def compared_trees(asked, wanted, answer, place):
    mine = Told.read(wanted.body, Place(place.site, place.prefix).name)
    other = Told.read(answer.body, place.name)
    if mine is None or other is None:
        if mine is not None or other is None:
            yield "no multistatus", "its body is no multistatus"
        return
    for path in sorted(mine.statuses.keys() | other.statuses.keys()):
        shown = path.decode("utf-8", "replace")
        if path not in other.statuses:
            yield "not told", f"{shown} isn't told"
        elif path not in mine.statuses:
            yield "told besides", f"{shown} is told too"
        else:
            if mine.statuses[path] != other.statuses[path]:
                yield "status within", f"{shown} has status {other.statuses[path]}, the oracle {mine.statuses[path]}"
            yield from compared_properties(asked, shown, mine.properties[path], other.properties[path])


def is_own(key):
    """Whether a property is one that servers have of themselves."""
    return key[0] == oracle.MICROSOFT or key[0] in (DAV, oracle.APACHE) and key[1] in OWN


def compared_properties(asked, path, mine, other):
    for key in sorted(mine.keys() | other.keys(), key=str):
        name = key[1] if key[0] == DAV else f"{{{key[0]}}}{key[1]}"
        if key not in other:
            yield ("own property" if is_own(key) else "property not told"), f"{path} isn't told its {name}"
        elif key not in mine:
            code = other[key][0]
            what = "property under 404" if code == 404 else "property besides"
            yield what, f"{path} is told its {name} under {code} too"
        elif mine[key][0] != other[key][0]:
            is_there = asked.method == "PROPFIND" and is_own(key)
            yield ("own property" if is_there else "property status"), f"{path} has {name} under {other[key][0]}, the oracle {mine[key][0]}"
        elif asked.method == "PROPFIND" and mine[key][0] == 200 and not is_own(key) and shape(mine[key][1]) != shape(other[key][1]):
            yield "property value", f"{path} has another {name}"


# What a difference may mean. Each rule has a method or several (None: any), the statuses of the oracle and of the server (None: any; or the
# word of another difference in place of both), a look at the request, and what is said. `ours` begins with words of docs/DEVIATIONS.md, or
# docs/DIFFERENCES.md, that name where the oracle isn't as the standard says; `either` has the section that leaves it open.
SUCCESS = (200, 201, 204)
FAULT = range(400, 600)


def has(name):
    return lambda asked, _: asked.value(name) is not None


def lacks(name):
    return lambda asked, _: asked.value(name) is None


def is_depth(*values):
    return lambda asked, _: (asked.value(b"depth") or b"").lower() in values


def always(*_):
    return True


def is_odd(asked, _):
    """Whether a path has dots, escaped slashes or an empty name."""
    return any(re.search(rb"\.\.|%2[ef]|//", re.sub(rb"^[a-z]+://", b"", path.lower())) for path in (asked.target, asked.value(b"destination") or b""))


def is_top(asked, _):
    """Whether a path is the script's root."""
    return b"/" in (asked.target, asked.value(b"destination"))


def in_text(*words):
    return lambda _, text: any(word in text for word in words)


OURS = [
    ("PROPFIND", (501,), (207, 403), is_depth(b"infinity"), "Depth infinity is 501"),
    ("PROPFIND", "told besides", None, lacks(b"depth"), "Without Depth it tells of a folder's members alone"),
    ("PROPFIND", (207,), (403,), lacks(b"depth"), "Without Depth it tells of a folder's members alone"),
    ("PROPFIND", "property under 404", None, always, "A property that isn't there is left out"),
    ("PROPFIND", "property not told", None, always, "What the store keeps is told with every question"),
    ("PROPFIND", "property value", None, in_text("{"), "A COPY leaves a folder's dead properties behind"),
    ("PROPFIND", "property besides", None, in_text("{"), "A COPY leaves a folder's dead properties behind"),
    ("GET", (405,), (200, 207, 301, 302, 403, 404), always, "a folder is 405"),
    ("HEAD", (405,), (200, 207, 301, 302, 403, 404), always, "a folder is 405"),
    ("GET", (200,), (206, 304, 412, 416), lambda asked, _: any(asked.value(name) for name in (b"range", b"if-modified-since", b"if-unmodified-since")), "reads whole files: no ranges, no If-Modified-Since"),
    ("HEAD", (200,), (304, 412), has(b"if-modified-since"), "reads whole files: no ranges, no If-Modified-Since"),
    ("GET HEAD", (200,), (304,), lambda asked, _: b"W/" in (asked.value(b"if-none-match") or b""), "If-None-Match compares strongly"),
    ("PUT", (416,), (400,), has(b"content-range"), "a Content-Range that names no bytes is 416"),
    ("UNLOCK", (204,), (403,), always, "Who knows a lock's token may end it"),
    ("UNLOCK", (204,), (409, 412), always, "find that lock at their path or on a folder above"),
    ("LOCK", (200,), (403, 409, 412, 423), lambda asked, _: asked.value(b"if") is not None, "A LOCK without a body refreshes the lock"),
    (None, (200, 201, 204, 207), (412,), lambda asked, _: b"<" in (asked.value(b"if") or b""), "A lock token in If is true wherever no lock covers the path"),
    (None, None, (400,), has(b"if"), "makes that If count as absent"),
    ("LOCK", (423,), SUCCESS, always, "isn't granted where any lock is below"),
    ("COPY MOVE", SUCCESS, (502,), always, "go by the path of Destination alone"),
    ("PROPPATCH", "property status", None, lambda asked, text: asked.removes and in_text("displayname", "getcontentlanguage")(asked, text), "that removes `displayname` or `getcontentlanguage` is answered 200"),
    ("OPTIONS", "classes", None, always, "tells `DAV: 1,2,3` also where there are no locks"),
]
EITHER = [
    ("DELETE COPY MOVE LOCK MKCOL PUT", None, None, is_top, "the script's root is a folder among others on the server"),
    ("PATCH", (411,), None, always, "a Content-Length is always sent"),
    (None, None, (301, 302, 307, 308), always, "a folder without a slash at its end may be redirected (RFC 4918, 5.2)"),
    ("PUT", SUCCESS, SUCCESS, always, "a PUT that replaces is 200 or 204 (RFC 9110, 9.3.4)", lambda one, other: 201 not in (one, other)),
    ("DELETE UNLOCK PATCH", (200, 204), (200, 202, 204), always, "200, 202 or 204 is success (RFC 9110, 9.3.5)"),
    ("LOCK", (200, 201), (200, 201), always, "a LOCK where nothing was is 201, and 200 of servers that go by RFC 2518 (RFC 4918, 9.10.4, D.1)"),
    ("LOCK UNLOCK", None, (405, 501), always, "locks are a class of their own (RFC 4918, 18.2)"),
    ("PROPPATCH", (207,), (403, 405, 501), always, "a server may protect all properties (RFC 4918, 9.2)"),
    ("PROPPATCH", "property status", None, lambda _, text: "under 200" not in text, "which properties can be set is the server's (RFC 4918, 9.2)"),
    ("PATCH", None, FAULT, always, "PATCH is none of WebDAV's methods (RFC 5789)"),
    (None, (501,), (400, 403, 404, 405), always, "an unknown method is 501, or 405 where it is known (RFC 9110, 9.1)"),
    (None, (405,), (501,), always, "an unknown method is 501, or 405 where it is known (RFC 9110, 9.1)"),
    (None, None, None, is_odd, "what a server makes of odd paths is its own matter (RFC 3986, 6)"),
    ("PUT MKCOL COPY MOVE LOCK DELETE PROPPATCH", (423,), (403, 404, 409, 412), always, "of several faults a server tells any"),
    ("PUT MKCOL COPY MOVE LOCK DELETE PROPPATCH", (404, 409, 412), (403, 404, 405, 409, 412, 423), always, "of several faults a server tells any"),
    ("MKCOL", (415,), (400, 403, 405, 409, 422), always, "of several faults a server tells any"),
    ("DELETE COPY MOVE", (207,), (403, 423, 424, 507), always, "a fault within a tree may be told of the whole (RFC 4918, 9.6.1)"),
    ("DELETE COPY MOVE", (403, 423, 507), (207,), always, "a fault within a tree may be told by a multistatus (RFC 4918, 13)"),
    ("PUT GET HEAD", "no tag", None, always, "a tag needn't be sent (RFC 9110, 8.8.3)"),
    ("OPTIONS", "classes", None, always, "locks are a class of their own (RFC 4918, 18.2)"),
    ("OPTIONS", (404,), SUCCESS, always, "OPTIONS may be answered for what isn't there (RFC 9110, 9.3.7)"),
    ("OPTIONS", SUCCESS, SUCCESS, always, "200 or 204 is success (RFC 9110, 9.3.7)"),
    ("PROPFIND", "own property", None, always, "which live properties there are is the server's (RFC 4918, 9.1 and 15)"),
    ("PROPFIND", "property besides", None, always, "which live properties there are is the server's (RFC 4918, 9.1 and 15)"),
    ("PROPFIND", (207,), (403,), is_depth(b"infinity"), "infinite depth may be refused (RFC 4918, 9.1)"),
    ("GET HEAD", (304,), (200,), lambda asked, _: asked.value(b"if-modified-since") is not None, "a date may be ignored (RFC 9110, 13.1.3)"),
    (None, (400,), FAULT, always, "of several faults a server tells any"),
]


def in_dav(element):
    """A body's element in which those without prefix and namespace are of `DAV:`: the oracle knows them by their local names. What is in a
    `prop` or an `owner` stays: it is the client's."""
    if isinstance(element, str):
        return element
    children = element["children"] if element["name"] in ("prop", "owner") else [in_dav(child) for child in element["children"]]
    named = {"prefix": "D", "namespace": DAV} if element["prefix"] is None and element["namespace"] is None else {}
    return {**element, **named, "children": children}


def as_sent(method, element):
    """The element of a body as a client sends it. The root of a PROPFIND has to be in `DAV:` for the oracle too."""
    is_other = method == "PROPFIND" and element["namespace"] != DAV and element["prefix"] is None
    return element if is_other else in_dav(element)


def is_done(status):
    """Whether a status says that something was done."""
    return 200 <= status < 300


def meaning(asked, wanted, answer, what, text):
    """`ours`, `either` or `other`, and what is said of it."""
    for kind, rules in (("ours", OURS), ("either", EITHER)):
        for methods, one, other, look, said, *more in rules:
            if methods is not None and asked.method not in methods.split():
                continue
            if isinstance(one, str):
                fits = one == what
            else:
                fits = what == "status" and (one is None or wanted.status in one) and (other is None or answer.status in other)
                fits = fits and all(check(wanted.status, answer.status) for check in more)
            if fits and look(asked, text):
                return kind, said
    return "other", ""
