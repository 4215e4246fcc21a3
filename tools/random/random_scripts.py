"""Random scripts of requests, for tools/random/play-at-random.

usage: no program; `Maker(seed, methods, most_requests, members).script` is a script, and `mutated(chance, script)` a text that may be none

Each request is made for the state that the oracle has then, so that tags, tokens and paths are often the right ones.
"""
import json
import random

import oracle

MOST_OUTPUT = 900_000  # the unproved build prints no more than a mebibyte

NAMES = [b"a", b"b", b"d", b"e", b".h", b"x y", b"\xc3\xa9", b"n%", b"\xff", b".\xff", b"%41", b"A", b"...", b"~-_", b"?#", b"*"]
PRINCIPALS = ["anna", "ben", None]
ERRORS = ["Forbidden", "NotFound", "Exists", "InsufficientStorage"]
WEIGHTS = {
    "PUT": 14, "GET": 8, "HEAD": 3, "PATCH": 9, "MKCOL": 9, "DELETE": 6, "COPY": 11, "MOVE": 10, "LOCK": 11, "UNLOCK": 4,
    "OPTIONS": 4, "PROPFIND": 7, "PROPPATCH": 8,
}
MEMBER_METHODS = ["LOCK", "PUT", "MKCOL", "DELETE", "MOVE", "COPY"]  # those that make, replace or remove names in a folder
OTHER_METHODS = ["FOO", "REPORT", "get", "MKCALENDAR", "POST", "TRACE", "PUTT"]


# Targets


def spelled(chance, name):
    """A name as a piece of a target: some bytes are escaped without need."""
    text = b""
    for byte in name:
        plain = 33 <= byte <= 126 and byte not in b"%?#/"
        if plain and chance.random() < 0.93:
            text += bytes([byte])
        else:
            text += (b"%%%02X" if chance.random() < 0.7 else b"%%%02x") % byte
    return text


def path_text(chance, names, slash):
    """A text of a path, now and then with pieces that name nothing."""
    text = b""
    for name in names:
        if chance.random() < 0.04:
            text += chance.choice([b"/", b"/.", b"/%2e", b"/zz/..", b"/a/%2E%2e"])
        text += b"/" + spelled(chance, name)
    if slash or not names:
        text += b"/"
    if chance.random() < 0.03:
        text += chance.choice([b"?q", b"?", b"/.", b"?a/../b", b"/x/..", b"//"])
    return text


ODD_PATHS = [
    b"/..", b"/%2e%2e/x", b"/a%2Fb", b"/a%00", b"/a/../../b", b"/%", b"/%6", b"/%zz", b"/../%2F", b"/%2F/..", b"/a#b", b"a", b"", b"/a\\b",
    b"/a<b", b'/a"b', b"/a`b", b"/a^b", b"/a{b}", b"/a|b", b"/a~b", b"/*", b"*", b"//", b"/.", b"/./", b"/d/..", b"/a;b=c", b"/a:b@c",
    b"?q",
]
AUTHORITIES = [
    b"http://h", b"https://h", b"HTTP://h:80", b"http://u:p@h", b"://h", b"dav+x://h", b"~x://h", b"http://[::1]:80", b"http://h:1:2",
    b"http://", b"http://@", b"http://h%41", b"http://u%41@h", b"http:/h", b"h", b"ht_tp://h", b"http://h\\", b"http://h?q", b"http://[h",
    b"http://a]b[", b"http://[a]:1", b"http://[a][b]", b"http://[a]b]", b"http://]a[", b"http://u@v@h", b"http://a:b@c:d",
    b"http://%41@[::1]", b"http://[%41]", b"http://[a%41]:1:2",
    b"s" * 64 + b"://h", b"s" * 65 + b"://h", b"a:b://h", b"http:///h", b"http://h:", b"//h", b"http://h/<", b'http://h/"', b"http://h/?<",
    b"http://h/?`{}", b"http://h/`", b"http://h!$&'()*+,;=_~-.h", b"http://h|",
]
URL_STARTS = ["http://h", "https://x.yz:80", "http://u@h", "dav:", "x-y:", "HTTP://h", "http:/h", "http:h", "ftp:\\\\h", "foo://h"]
ODD_TAGS = ["", "urn:x", "urn:*", "*", "/a", "a", "http://", "http://h:99999/a", "http://h", "http://h?q", "http://h/../a",
    "http://h/a/%2e%2e/b", "foo://h", "h h"]

PATH_PARTS = [b"a", b"b", b".", b"..", b"%2e", b"%2E", b"%2f", b"%00", b"%", b"/", b"/", b"/", b"%41", b"%6", b"?", b"#", b";", b"%25",
    b"%ff", b"~", b"d"]
IF_PARTS = [b"(", b")", b"(", b")", b"<", b">", b"[", b"]", b"Not", b"Not ", b" ", b'"', b"a", b"<a:b>", b'["1"]', b'[W/"1"]',
    b"<http://h/a>", b"DAV:x", b"<urn:t:1>", b"\xff",
    b"\t", b"no", b"not", b"N", b"(<urn:t:1>)"]
ODD_IFS = [
    b"()", b"(Not Not <a:b>)", b'(["x)', b"(<a:b>", b"<a:b>)", b"(Not)", b"(<a:b> Not)", b"(<a:b>) Not", b"(NotNot:x)", b"(Nothing:x)",
    b"(DAV:x)", b"(plain:word)", b"(<>)", b"<> (<a:b>)", b"(<a b>)", b'(<a"b>)', b'(<DAV:">"b>)', b"(<a:b>)(<a:b>)", b"(\xff)", b"(<\xff>)",
    b"(DAV:\xc3\xa9)", b'(["\xff"])', b"([W/])", b"([])", b"((<a:b>))", b"x", b"", b"(<a:b>)x", b"<http://h/a> <http://h/b> (<a:b>)",
    b"Not (<a:b>)", b"(<a:b>) <http://h/a>", b'(DAV:"a)', b'(DAV:a"b)', b"(DAV:xNot:y)", b"(<DAV:a>Not<DAV:b>)", b"() (<a:b>)",
    b"(<a:b>) ()",
    b"(<a:b>)(", b"(<a:b>))", b"(<a:b>)[", b"(<DAV:\xff>)", b"(DAV:\xff)", b"(Not<a:b>Not)", b"(Not<a:b>Not Not)", b"( <a:b>\t)",
    b"(<a:b>)\t",
    b"(<a:b)>", b"(<DAV:<>)", b"(<DAV:(>)", b"(DAV:x<a:b>)", b"(DAV:x[\"1\"])", b"<http://h/a>(<a:b>)", b"<http://h/a>Not(<a:b>)",
    b"<h> (<a:b>)", b"<http://h:x/> (<a:b>)", b"<dav:a> (<a:b>)", b"<dav://h/a> (<a:b>)", b"(<a:b>) (<a:b>", b"DAV:x", b"(<a:b>)DAV:x",
    b"( <a:b> <a:b> )", b"(<a:b>\xc2\xa0)",
]
URL_PARTS = [b"a", b"b", b"/", b"/", b"/", b".", b"..", b"%2e", b"%2E", b"%2f", b"%00", b"%", b"?", b"#", b"\\", b"|", b"{", b"`", b"^",
    b"%25", b"\xc3\xa9", b":", b"@", b"~"]
BEGINNINGS = [("d",), ("e",), ("d", "a"), ("d", "b"), ("d", "e", "a"), ("e", "b"), ("e", "d", "a")]


class Maker:
    """Makes one random script, a request after another, each for the state that the oracle has then."""

    def __init__(self, seed, methods, most_requests, members=False):
        self.chance = random.Random(seed)
        self.members = self.likely(0.25) or members
        self.wanted_methods = methods or (MEMBER_METHODS if self.members else self.favourites())
        self.oddness = self.chance.choice([0.3] if self.members else [0.3, 1, 1, 1, 8])
        self.script = self.options()
        self.tokens = 0
        self.output = 0
        self.moment = 0
        self.server = self.parsed().server()
        count = self.chance.randint(max(1, most_requests // 3), most_requests)
        if self.members or self.likely(0.6):
            self.begin()
        while len(self.script["requests"]) < count and self.output < MOST_OUTPUT:
            self.add(self.request())
            if self.likely(0.02):
                self.look_at_all(count)
        if self.likely(0.8):
            self.look_at_all(len(self.server.store.nodes))
        self.choose_alone()

    def begin(self):
        """Some folders and files, and perhaps a lock, for what comes then."""
        for names in self.chance.sample(BEGINNINGS, self.chance.randint(1, len(BEGINNINGS))):
            for length in range(1, len(names)):
                self.begin_with("MKCOL", names[:length], {})
            self.begin_with("PUT" if len(names) > 1 else "MKCOL", names, {"body": {"text": "one"}} if len(names) > 1 else {})
        if self.members:
            self.guard_folders()
        for _ in range(self.chance.choice([0, 0, 1, 2])):
            self.add(self.request("LOCK"))

    def guard_folders(self):
        """Locks of Depth 0 on some of the folders, most of them exclusive."""
        folders = sorted(names for names, node in self.server.store.nodes.items() if node.is_folder)
        for names in self.chance.sample(folders, self.chance.randint(1, len(folders))):
            self.chosen = names
            path = oracle.Path(names, True, self.prefix())
            scope = element("lockscope", [element(self.chance.choice(["exclusive", "exclusive", "shared"]))])
            request = {"head": f"LOCK {path.url()} HTTP/1.1\r\nDepth: 0\r\n\r\n", "token": self.token(),
                       "body": {"element": element("lockinfo", [scope, element("locktype", [element("write")])])}}
            principal = self.chance.choice(PRINCIPALS)
            self.add(dict(request, principal=principal) if principal else request)

    def guarded_name(self):
        """Names of a member of a folder with a lock of Depth 0, or of a new one; None where there is no such folder."""
        nodes = self.server.store.nodes
        locked = {lock.path.names for lock in self.locks() if not lock.deep}
        folders = sorted(names for names in locked if names in nodes and nodes[names].is_folder)
        if not folders:
            return None
        folder = self.chance.choice(folders)
        inner = sorted(key for key in nodes if key[:-1] == folder and key)
        return self.chance.choice(inner) if inner and self.likely(0.5) else folder + (self.new_name(),)

    def begin_with(self, method, names, more):
        path = oracle.Path([name.encode() for name in names], False, self.prefix())
        if path.names not in self.server.store.nodes:
            self.add({"head": f"{method} {path.url()} HTTP/1.1\r\n\r\n", **more})

    def look_at_all(self, most):
        """What is everywhere: numbers, times, locks and properties, and the bytes of each file."""
        root = oracle.escaped(self.prefix()) + "/"
        self.add({"head": f"PROPFIND {root} HTTP/1.1\r\nDepth: infinity\r\nX-Litmus: all\r\n\r\n"})
        files = sorted(key for key, node in self.server.store.nodes.items() if not node.is_folder)
        for names in files[:most]:
            path = oracle.Path(names, False, self.prefix())
            self.add({"head": f"GET {path.url()} HTTP/1.1\r\n\r\n"})

    def favourites(self):
        """Methods that most requests of a script have; often there are none."""
        return self.chance.sample(list(WEIGHTS), self.chance.choice([0, 0, 0, 1, 2, 3]))

    def likely(self, share):
        return self.chance.random() < share

    def odd(self, share):
        """Whether something is to be odd: in some scripts much is, in others little."""
        return self.likely(min(share * self.oddness, 0.5))

    def jumble(self, parts, most=7):
        """Some parts in any order."""
        return b"".join(self.chance.choice(parts) for _ in range(self.chance.randint(0, most)))

    def parsed(self):
        return oracle.read_script(json.dumps(self.script).encode())

    def options(self):
        script = {"requests": []}
        if self.likely(0.4):
            script["prefix"] = self.chance.choice(["/dav", "/dav", "/dav/", "/", "", "/x y", "/d/e", "/a%zz"])
        if self.likely(0.06):
            script["methods"] = self.chance.sample([name.lower() for name in oracle.KNOWN], self.chance.randint(0, 16))
        if self.likely(0.08):
            script["locks"] = self.likely(0.2)
        if self.likely(0.12):
            last = oracle.LAST_NUMBER
            script["next"] = self.chance.choice([0, 7, 254, last, last - 1, last - 2, last - self.chance.randint(3, 12)])
        return script

    def add(self, request):
        self.script["requests"].append(request)
        reply = self.server.play(oracle.read_request(request))
        self.output += len(reply.line()) + 1

    def choose_alone(self):
        with_token = [place for place, request in enumerate(self.script["requests"]) if request.get("token")]
        if with_token and self.likely(0.25):
            self.script["alone"] = self.chance.choice(with_token)

    # Paths

    def prefix(self):
        return self.script.get("prefix", "").encode().removesuffix(b"/")

    def new_name(self):
        return self.chance.choice(NAMES[:4] if self.likely(0.85) else NAMES)

    def any_names(self):
        """Names of something that is there, or of a new member of a folder, or of nothing."""
        nodes = self.server.store.nodes
        kind = self.chance.random()
        keys = sorted(nodes)
        if kind < 0.55:
            inner = [key for key in keys if key]
            return self.chance.choice(inner or keys)
        if kind < 0.9:
            folder = self.chance.choice([key for key in keys if nodes[key].is_folder and len(key) < 4])
            return folder + (self.new_name(),)
        if kind < 0.93:
            return ()
        return tuple(self.new_name() for _ in range(self.chance.randint(1, 3)))

    def names_for(self, method):
        """Names with which a method often succeeds; or, where it is to be refused or its client holds the folder's lock, a guarded name."""
        guarded = self.guarded_name() if self.members and method != "UNLOCK" and self.likely(0.75) else None
        if guarded:
            return guarded
        nodes = self.server.store.nodes
        files = sorted(key for key, node in nodes.items() if not node.is_folder)
        inner = sorted(key for key in nodes if key)
        locked = [lock.path.names for lock in self.locks()]
        if locked and self.likely({"UNLOCK": 0.75, "LOCK": 0.3}.get(method, 0.1)):
            return self.near(self.chance.choice(locked))
        if method in ("DELETE", "COPY", "MOVE", "PROPFIND") and self.likely(0.35):
            return self.full_folder()
        if method == "MKCOL" and self.likely(0.6) or method in ("PUT", "LOCK") and self.likely(0.25):
            return self.new_member()
        if method in ("PUT", "PATCH", "GET", "HEAD") and files and self.likely(0.75):
            return self.chance.choice(files)
        if method not in ("PUT", "PATCH", "MKCOL") and inner and self.likely(0.7):
            return self.chance.choice(inner)
        return self.any_names()

    def full_folder(self):
        """A folder with members, where there is one but the root."""
        folders = sorted({key[:-1] for key in self.server.store.nodes if len(key) > 1})
        return self.chance.choice(folders) if folders else self.any_names()

    def new_member(self):
        folders = sorted(key for key, node in self.server.store.nodes.items() if node.is_folder and len(key) < 3)
        return self.chance.choice(folders) + (self.new_name(),)

    def target_text(self, names):
        """The bytes of a target that names a path, or an odd one."""
        if self.odd(0.015):
            return self.chance.choice(ODD_PATHS) if self.likely(0.4) else self.prefix().replace(b" ",
                b"%20") + b"/" + self.jumble(PATH_PARTS)
        node = self.server.store.nodes.get(names)
        text = path_text(self.chance, names, self.likely(0.5 if node and node.is_folder else 0.07))
        text = self.outside(text) if self.odd(0.02) else self.prefix().replace(b" ", b"%20") + text
        if self.odd(0.04):
            text = self.chance.choice(AUTHORITIES[:8] if self.likely(0.6) else AUTHORITIES) + text
        if self.odd(0.01):
            text += self.chance.choice([b"#x", b"%", b"%00", b"/..", b"/../..", b"\xe9", b"<>", b"/%2f"])
        return text

    def outside(self, text):
        return self.chance.choice([b"", b"/other", self.prefix() + b"x", self.prefix() or b"/d/.."]) + text

    # Heads

    def request(self, method=None):
        method = method or self.method()
        names = self.chosen = self.names_for(method)
        request, fields = {}, []
        self.set_caller(request)
        getattr(self, f"for_{method.lower()}", self.for_other)(names, request, fields)
        if self.likely(0.02):
            request["body"] = self.chance.choice([{"text": "x"}, {"text": ""}, "malformed", {"hex": "00ff"}, {"element": {"name": "a"}},
                None])
        self.conditions(method, names, request, fields)
        request["head"] = self.head_value(self.head(method, names, fields))
        self.set_moment(request)
        if "refuse" not in request and self.likely(0.4 if method in ("DELETE", "COPY", "MOVE", "PROPFIND") else 0.22):
            self.set_refusals(request)
        return request

    def method(self):
        if self.likely(0.01):
            return self.chance.choice(OTHER_METHODS)
        if self.wanted_methods and self.likely(0.6):
            return self.chance.choice(self.wanted_methods)
        method = self.chance.choices(list(WEIGHTS), list(WEIGHTS.values()))[0]
        return "LOCK" if method == "UNLOCK" and not self.locks() and self.likely(0.8) else method

    def head(self, method, names, fields):
        target = b"*" if self.odd(0.1 if method == "OPTIONS" else 0.005) else self.target_text(names)
        self.chance.shuffle(fields)
        if fields and self.odd(0.06):
            self.disturb(fields)
        end = b"\n" if self.likely(0.02) else b"\r\n"
        version = b"HTTP/1.0" if self.likely(0.02) else b"HTTP/1.1"
        head = b"%s %s %s%s" % (method.encode(), target, version, end)
        for name, value in fields:
            head += self.field_name(name) + b":" + self.padded(value) + end
        return self.damaged(head + end) if self.odd(0.02) else head + end

    def disturb(self, fields):
        """Doubles a header line, as it is or with the value of another line; drops one, empties one, or exchanges two values."""
        kind = self.chance.randrange(5)
        place, other = self.chance.randrange(len(fields)), self.chance.randrange(len(fields))
        (name, value), (other_name, other_value) = fields[place], fields[other]
        if kind == 0:
            fields.insert(other, (name, value))
        elif kind == 1:
            fields.insert(other, (name, other_value))
        elif kind == 2:
            fields.pop(place)
        elif kind == 3:
            fields[place] = (name, b"")
        else:
            fields[place], fields[other] = (name, other_value), (other_name, value)

    def field_name(self, name):
        if self.odd(0.05):
            name = self.chance.choice([name.upper(), name.lower()])
        return name.encode()

    def padded(self, value):
        blank = b" " if not self.odd(0.05) else self.chance.choice([b"", b"\t", b"  ", b" \t "])
        return blank + value + (self.chance.choice([b" ", b"\t ", b""]) if self.likely(0.04) else b"")

    def damaged(self, head):
        """A head with one fault, or with what is no fault."""
        kind = self.chance.randrange(9)
        place = self.chance.randrange(len(head))
        if kind == 0:
            return head[:place]
        if kind == 1:
            return head + self.chance.choice([b"x", b"\r\n", b"\n", b"\0"])
        if kind == 2:
            return self.chance.choice([b"\r\n", b"\n", b"\r\n\n", b"\r", b" "]) + head
        if kind == 3:
            return head[:place] + bytes([self.chance.choice([0, 7, 9, 10, 13, 32, 127, 128, 255])]) + head[place:]
        if kind == 4:
            return head[:-2] + b"X: y\r\n" * self.chance.choice([62, 63, 64, 65]) + b"\r\n"
        if kind == 5:
            return head.replace(b"HTTP/1.1", self.chance.choice([b"HTTP/2.0", b"HTTP/1.2", b"http/1.1", b"HTTP/1.1 ", b" HTTP/1.1"]), 1)
        if kind == 6:
            return head[:-2] + self.chance.choice([b" x: y\r\n", b"X : y\r\n", b"X y\r\n", b": y\r\n", b"X:\r\n", b"X: \xff\r\n",
                b"X:y\r\n z\r\n"]) + b"\r\n"
        if kind == 7:
            wanted = self.chance.choice([65535, 65536, 65537]) - len(head) - 5
            return head[:-2] + b"X: " + b"y" * max(wanted, 0) + b"\r\n" + head[-2:]
        return head[:place] + head[place + 1:]

    def head_value(self, head):
        try:
            text = head.decode("utf-8")
        except UnicodeDecodeError:
            return {"hex": head.hex()}
        return text if self.likely(0.98) else {"hex": head.hex()}

    # What all requests have

    def locks(self):
        return self.server.locks.list if self.server.locks else []

    def covering(self, names):
        return [lock for lock in self.locks() if lock.at_or_below(names) or lock.at_or_above(names)]

    def set_caller(self, request):
        """Who makes the request: often the one whose lock is there."""
        covering = self.covering(self.chosen)
        if covering and self.likely(0.6):
            principal = self.chance.choice(covering).principal
        else:
            principal = self.chance.choice(PRINCIPALS if self.likely(0.97) else ["", "Anna", "\u00e9\"<&"])
        if principal is not None or self.likely(0.1):
            request["principal"] = principal

    def set_moment(self, request):
        if self.likely(0.7):
            self.moment += self.chance.choice([0, 1, 59, 3600, 86399])
        moment = self.moment
        if self.likely(0.06):
            moment = self.chance.choice([self.chance.randint(0, oracle.LAST_MOMENT), self.chance.randint(0, 2**32), oracle.LAST_MOMENT,
                951782400, 4107542399, 68169600, 2**32, 253402300798, 13574563200])
        if moment or self.likely(0.1):
            request["moment"] = moment

    def set_refusals(self, request):
        calls = oracle.calls_of(self.server, oracle.read_request(request))
        refuse = [None] * calls
        for _ in range(self.chance.choice([1, 1, 1, 2, 3])):
            place = self.refused_place(calls)
            refuse += [None] * (place + 1 - len(refuse))
            refuse[place] = self.chance.choice(ERRORS if self.likely(0.6) else list(oracle.STATUS_OF))
        if self.likely(0.05):
            refuse = [name or self.chance.choice(ERRORS) for name in refuse]
        request["refuse"] = refuse

    def refused_place(self, calls):
        """Which call is refused: often one of the first, which look at what is there, or of the last, which change it."""
        kind = self.chance.random()
        if kind < 0.35:
            return self.chance.randint(0, min(3, calls))
        return self.chance.randint(0, calls) if kind < 0.75 else max(0, calls - self.chance.randint(0, 4))

    # Conditions

    def conditions(self, method, names, request, fields):
        if method in ("OPTIONS", "UNLOCK", "PROPFIND") and self.likely(0.9):
            return
        share = 0.07 if method not in ("GET", "HEAD") else 0.25
        for name in ("If-Match", "If-None-Match"):
            if self.likely(share):
                fields.extend((name, self.tags(names)) for _ in range(2 if self.likely(0.1) else 1))
        covering = self.covering(names) + self.covering(self.destination_names)
        if self.members and covering and self.likely(0.45):
            self.submit(covering, request, fields)
        elif self.likely(0.7 if covering else 0.12):
            fields.extend(("If", self.if_value(names, request)) for _ in range(2 if self.likely(0.02) else 1))
        if self.likely(0.02):
            fields.append(("If-Range", b'"1"'))
        if method in ("PUT", "PATCH", "LOCK") and self.likely(0.05):
            fields.append(("If-None-Match", b"*"))
            request["refuse"] = [self.chance.choice(ERRORS)]
        self.destination_names = ()

    destination_names = ()

    def submit(self, locks, request, fields):
        """The tokens of some locks, by the principal of one of them."""
        request.pop("principal", None)
        principal = self.chance.choice(locks).principal
        if principal is not None:
            request["principal"] = principal
        fields.append(("If", b" ".join(b"(<%s>)" % lock.token.encode() for lock in locks)))

    def tag(self, names):
        node = self.server.store.nodes.get(names)
        if node is not None and self.likely(0.65):
            text = node.quoted_tag()
        else:
            text = f'"{self.chance.choice([0, 1, 2, 3, 10, self.server.store.next - 1]):x}"'
        if self.likely(0.08):
            text = "W/" + text
        if self.odd(0.08):
            text = self.chance.choice([text[1:], text[:-1], "x" + text, text + "x", '"' + text, text + '"', text.upper(), "w/" + text,
                "W/ " + text, text.replace('"', "'"), text[1:-1], "\u00e9" + text])
        elif self.odd(0.02):
            text = self.chance.choice(["x", '"', '""', '"a,b"', "*", '"\u00e9"', 'W/"', " ", '"a b"', '"a\tb"'])
        return text

    def tags(self, names):
        if self.likely(0.2):
            return self.chance.choice([b"*", b"*", b" * ", b"*,*", b'*, "1"'])
        if self.odd(0.04):
            node = self.server.store.nodes.get(names)
            return self.jumble([b'"', b"W/", b",", b" ", b"*", b"\t", b"a", b"\xff", b'"1"',
                (node.quoted_tag() if node else '"2"').encode()])
        tags = [self.tag(names) for _ in range(self.chance.choice([1, 1, 1, 2, 3]))]
        return self.chance.choice([", ", ",", " ,", ",,"]).join(tags).encode()

    def if_value(self, names, request):
        if self.odd(0.05):
            return self.odd_if(names, request)
        lists = [self.if_list(names, request) for _ in range(self.chance.choice([1, 1, 1, 1, 2, 2, 3]))]
        value = self.chance.choice([b" ", b"", b"\t "]).join(lists)
        if self.odd(0.05):
            value = self.changed(value)
        return value

    def changed(self, value):
        """A header with a part put in, or with a byte left out."""
        place = self.chance.randrange(len(value) + 1)
        part = b"" if self.likely(0.3) else self.chance.choice(IF_PARTS)
        return value[:place] + part + value[place + (part == b""):]

    def odd_if(self, names, request):
        """An If that may not be one. Its items are false, or a token that counts, so that it is seen whether it was read."""
        value = self.jumble(IF_PARTS, 9) if self.likely(0.4) else self.chance.choice(ODD_IFS)
        item = self.if_item(names, request) if self.likely(0.5) else b"<DAV:x>"
        return value.replace(b"<a:b>", item)

    def if_list(self, names, request):
        tag = b""
        of = names
        if self.likely(0.2):
            of = self.any_names()
            tag = b"<%s> " % self.resource_tag(of)
        items = [self.if_item(of, request) for _ in range(self.chance.choice([1, 1, 1, 1, 2, 2, 3]))]
        return tag + b"(" + self.chance.choice([b" ", b"", b" "]).join(items) + b")"

    def resource_tag(self, names):
        if self.odd(0.08):
            return self.chance.choice(URL_STARTS).encode() + b"/" + self.jumble(URL_PARTS)
        if self.odd(0.1):
            return self.chance.choice(ODD_TAGS).encode().replace(b" ", b"%20")
        start = self.chance.choice(URL_STARTS[:3] if self.likely(0.8) else URL_STARTS).encode()
        return start + self.prefix().replace(b" ", b"%20") + path_text(self.chance, names, self.likely(0.3))

    def if_item(self, names, request):
        inverted = b"Not " if self.likely(0.12) else b""
        if self.likely(0.2):
            return inverted + b"[" + self.tag(names).replace(" ", "").replace("\t", "").encode() + b"]"
        covering = self.covering(names) + self.covering(self.chosen) + self.covering(self.destination_names)
        if covering and self.likely(0.85):
            lock = self.chance.choice(covering)
            token = lock.token
        else:
            token = self.chance.choice(["urn:t:1", "urn:t:2", "a:b", "DAV:no-lock", "DAV:x", f"urn:t:{self.tokens}"])
        return inverted + (f"<{token}>" if self.likely(0.93) else token).encode()

    # Each method

    def for_other(self, names, request, fields):
        pass

    def for_put(self, names, request, fields):
        data = bytes(self.chance.choice(b"xyz\0\xff") for _ in range(self.chance.choice([0, 1, 1, 1, 2, 3, 5])))
        self.set_bytes(data, request)
        self.lengths(len(data), fields)
        if self.likely(0.12):
            fields.append(("Content-Range", self.content_range(len(data))))

    def set_bytes(self, data, request):
        if data or self.likely(0.5):
            request["body"] = {"hex": data.hex()} if self.likely(0.5) or not data.isascii() else {"text": data.decode()}

    def lengths(self, length, fields):
        kind = 0.9 if self.odd(0.03) else self.chance.random()
        if kind < 0.85:
            fields.append(("Content-Length", b"%d" % length))
        elif kind < 0.88:
            fields.append(("Content-Length", b"%d" % self.chance.choice([0, length + 1, oracle.LAST_NUMBER, 2**64])))
        elif kind < 0.92:
            fields.extend(("Content-Length", value) for value in self.chance.choice([
                [b"%d" % length, b"%d" % length], [b"%d" % length, b"%d" % (length + 1)], [b"0%d" % length, b"%d" % length],
                    [b"%d, %d" % (length, length)],
                [b"x"], [b""], [b"+%d" % length], [b"-1"], [b"%d.0" % length]]))
        if self.likely(0.06):
            value = self.chance.choice([length, length, length + 1, 2**64, "x", ""])
            fields.extend(("X-Expected-Entity-Length", str(value).encode()) for _ in range(self.chance.choice([1, 1, 2])))

    def content_range(self, length):
        first = self.chance.choice([0, 0, 1, 2, 3, 7, 20, 2**31 - 1, 2**31, 2**53, 2**64 - 1])
        last = first + length - 1 if self.likely(0.75) else self.chance.choice([0, 1, 5, 2**64 - 1, 2**64])
        total = self.chance.choice(["*", "9", "0", "18446744073709551615"])
        if self.odd(0.08):
            return b"bytes " * self.likely(0.8) + self.jumble([b"0", b"1", b"7", b"-", b"/", b"*", b" ", b"18446744073709551616"])
        if self.odd(0.12):
            return self.chance.choice([b"bytes */7", b"bytes */*", b"bytes 0-0/x", b"bytes=0-0/1", b"bytes 0-0", b"x", b"", b"bytes 0-/1",
                b"bytes  0-0/1", b"Bytes 0-0/1"])
        return f"bytes {first}-{last}/{total}".encode()

    def for_patch(self, names, request, fields):
        data = bytes(self.chance.choice(b"pqr") for _ in range(self.chance.choice([0, 1, 1, 2, 3])))
        self.set_bytes(data, request)
        self.lengths(len(data), fields)
        kind = b"application/x-sabredav-partialupdate"
        if self.likely(0.06):
            kind = self.chance.choice([b"text/plain", kind.upper(), kind + b"; a=b", b"\xff", b""])
        if self.likely(0.97):
            fields.extend(("Content-Type", kind) for _ in range(2 if self.likely(0.03) else 1))
        if self.likely(0.96):
            fields.extend(("X-Update-Range", self.update_range(len(data), names)) for _ in range(2 if self.likely(0.02) else 1))
        if self.likely(0.08):
            fields.append(("Content-Range", self.content_range(len(data))))

    def update_range(self, length, names):
        node = self.server.store.nodes.get(names)
        size = len(node.data) if node else 0
        kind = self.chance.random()
        first = self.chance.choice([0, 1, size, size + 2, 9, 2**31 - 1, 2**31, 2**53, 2**64 - 1] if self.likely(0.3) else [0, 1, size,
            size + 1])
        if kind < 0.3:
            last = first + length - 1 if self.likely(0.8) else self.chance.choice([0, 3, 2**64 - 1, 2**64])
            return b"bytes=%d-%d" % (first, max(last, 0))
        if kind < 0.55:
            return b"bytes=%d-" % first
        if kind < 0.75:
            return b"bytes=-%d" % self.chance.choice([0, 1, size, size, size + 1, 2**64 - 1])
        if kind < 0.95:
            return b"append"
        if self.likely(0.5):
            return b"bytes=" + self.jumble([b"0", b"1", b"-", b",", b"00", b" "])
        return self.chance.choice([b"Append", b"bytes=-", b"bytes 0-1", b"bytes=a-b", b"bytes=0-1,2-3", b"", b"bytes=-18446744073709551616",
            b"bytes=00-000", b"bytes=1"])

    def depth(self, fields, usual, share=0.5):
        if self.likely(share):
            value = self.chance.choice(usual if self.likely(0.88) else [b"0", b"1", b"infinity", b"Infinity", b"2", b"INFINITY", b"",
                b"0,1", b"-1", b"00"])
            fields.extend(("Depth", value) for _ in range(2 if self.likely(0.03) else 1))

    def for_delete(self, names, request, fields):
        self.depth(fields, [b"0", b"infinity"], 0.3)

    def for_copy(self, names, request, fields):
        self.depth(fields, [b"0", b"infinity"], 0.45)
        self.destination(names, fields)

    def for_move(self, names, request, fields):
        self.depth(fields, [b"infinity"], 0.15)
        self.destination(names, fields)

    def destination(self, names, fields):
        kind = self.chance.random()
        self.destination_names = self.near(names) if kind < 0.15 else self.new_member() if kind < 0.6 else self.any_names()
        if names[:len(self.destination_names)] == self.destination_names and self.likely(0.7):
            self.destination_names = self.new_member()
        if self.members and self.likely(0.6):
            self.destination_names = self.guarded_name() or self.destination_names
        if self.likely(0.97):
            fields.extend(("Destination", self.destination_text()) for _ in range(2 if self.likely(0.02) else 1))
        if self.likely(0.35):
            value = self.chance.choice([b"T", b"F", b"F"] if self.likely(0.9) else [b"t", b"f", b"", b"x", b"TF", b"False"])
            fields.extend(("Overwrite", value) for _ in range(2 if self.likely(0.03) else 1))

    def near(self, names):
        """Some names themselves, or names above or below them."""
        kind = self.chance.random()
        if kind < 0.45:
            return names
        if kind < 0.65:
            return names[:-1]
        below = sorted(key for key in self.server.store.nodes if key[:len(names)] == names)
        if kind < 0.85 and below:
            return self.chance.choice(below)
        return names + (self.new_name(),)

    def destination_text(self):
        text = self.target_text(self.destination_names)
        kind = self.chance.random()
        if kind < 0.15:
            return self.chance.choice([b"http://h", b"https://other:81", b"HTTP://H", b"http://", b"http:"]) + text
        if self.odd(0.05):
            return b"/" + self.jumble(PATH_PARTS) if self.likely(0.7) else b"http://" + self.jumble(PATH_PARTS)
        if kind < 0.18:
            return self.chance.choice([b"http://h", b"http://h?q=/a", b"ftp://h/a", b"*", b"", b"a", b"/a\tb", b"/a b", b"/\xff", b"//h/a",
                b"/%00/.."])
        return text

    def for_lock(self, names, request, fields):
        kind = self.chance.random() if self.covering(names) or self.likely(0.1) else 1
        self.depth(fields, [b"0", b"infinity", b"0"], 0.6)
        if self.likely(0.5):
            fields.extend(("Timeout", self.timeout()) for _ in range(2 if self.likely(0.03) else 1))
        if self.likely(0.92):
            request["token"] = self.token()
        if kind > 0.3:
            request["body"] = self.lock_body()
        elif kind > 0.27:
            request["body"] = self.chance.choice([{"text": ""}, {"text": "x"}, "malformed"])
        else:
            self.holds(request, fields)

    def holds(self, request, fields):
        """A refresh often names a lock that is there, as its holder."""
        covering = self.covering(self.chosen)
        if covering and self.likely(0.8):
            lock = self.chance.choice(covering)
            if self.likely(0.85):
                request["principal"] = lock.principal
            fields.append(("If", self.chance.choice(["(<{}>)", "(<{}>)", "(Not <{}>)", "(<DAV:x>) (<{}>)", "(<{}>) (<{}>)"]).replace("{}",
                lock.token).encode()))

    def token(self):
        if self.locks() and self.likely(0.12):
            return self.chance.choice(self.covering(self.chosen) or self.locks()).token
        self.tokens += 1
        return f"urn:t:{self.tokens}"

    def timeout(self):
        if self.odd(0.05):
            return self.jumble([b"Second-", b"1", b"0", b",", b" ", b"Infinite", b"4294967295"])
        return self.chance.choice([
            b"Infinite", b"Second-1", b"Second-600", b"Second-601", b"Second-86400", b"Second-86401", b"Second-4294967295",
                b"Infinite, Second-5", b"Second-5 , Infinite",
            b"Second-4294967296", b"second-5", b"Second-", b"", b"Second-5,", b"Second-007", b"Second-0", b"infinite",
            b"Second-5 Infinite"])

    def lock_body(self):
        scope = element("lockscope", [element(self.chance.choice(["exclusive", "shared"]))])
        parts = [scope, element("locktype", [element("write")])]
        if self.likely(0.25):
            owner = element("owner", self.chance.choice([["anna"], [], [element("href", ["mailto:a"], "D", "DAV:"), "\u00e9"], [""]]))
            if self.odd(0.03):
                owner = nest(self.chance.randint(55, 61), "owner")
            owner.update(self.chance.choice([{}, {"namespace": "DAV:", "prefix": "D"}, {"namespace": "urn:n", "prefix": "n",
                "attributes": [["xmlns:n", "urn:n"]]}]))
            parts.append(owner)
        if self.likely(0.12):
            parts.insert(self.chance.randint(0, len(parts)), self.chance.choice([
                element("lockscope", [element("shared")]), element("lockscope", [element("exclusive"), element("x")]), element("lockscope",
                    ["x", element("shared")]), element("lockscope"),
                element("locktype", [element("read")]), element("x"), "text", element("owner"), element("lockscope", ["exclusive"]),
                    element("locktype", [" ", element("write")])]))
        if self.likely(0.05):
            parts.pop(self.chance.randrange(len(parts)))
        self.chance.shuffle(parts)
        name = "lockinfo" if self.likely(0.97) else self.chance.choice(["LockInfo", "lock"])
        namespace = self.chance.choice(["DAV:", "DAV:", None, "urn:n"])
        return {"element": element(name, parts, "D", namespace)}

    def for_unlock(self, names, request, fields):
        covering = self.covering(names)
        token = self.chance.choice(covering).token if covering and self.likely(0.7) else f"urn:t:{self.chance.randint(1, self.tokens + 1)}"
        if self.likely(0.93):
            text = self.chance.choice(["<{}>", "<{}>", "<{}>", "{}", "<<{}>>", ">{}<", "<{}", "<{}> ", "x<{}>"]).replace("{}", token)
            fields.append(("Lock-Token", text.encode()))
        if self.likely(0.05):
            fields.append(("Lock-Token", self.chance.choice([b"<urn:t:1>", b"", b"<>", b"\xff"])))

    # Properties

    def property(self):
        """A property's name, with its prefix and namespace."""
        name, prefix, namespace = self.chance.choice(PROPERTIES)
        if self.likely(0.08):
            prefix = self.chance.choice([None, "", "q", "D"])
        if self.likely(0.04):
            namespace = self.chance.choice([None, "", "DAV:", "urn:m"])
        return element(name, [], prefix, namespace)

    def for_propfind(self, names, request, fields):
        self.depth(fields, [b"0", b"1", b"1", b"infinity"], 0.75)
        if self.likely(0.2):
            fields.extend(("X-Litmus", self.chance.choice([b"a 1", b"",
                b"\xff"] if self.likely(0.2) else [b"a 1"])) for _ in range(2 if self.likely(0.05) else 1))
        if self.likely(0.15):
            fields.extend(("User-Agent", agent) for agent in self.chance.choice([[b"Microsoft-WebDAV"], [b"x", b"Microsoft"],
                [b"Microsoft\xff"], [b"WebDAVFS"], [b"microsoft"], [b"a Microsoft b", b"c"]]))
        if self.likely(0.75):
            request["body"] = self.find_body()

    def find_body(self):
        if self.likely(0.05):
            return self.chance.choice(["malformed", {"text": "x"}, {"text": ""}, {"element": element("propfind", [element("allprop")])},
                {"element": element("propfind", [], "D", "DAV:")},
                                       {"element": element("Propfind", [element("allprop")], "D", "DAV:")}, {"element": element("propfind",
                                       [element("x"), "y"], "D", "DAV:")}])
        asked = [self.asked_property() for _ in range(self.chance.randint(0, 6))]
        asked += [self.kept_property() for _ in range(self.chance.choice([0, 0, 1, 2]))]
        questions = [element("prop", asked, "D", "DAV:"), element("allprop"), element("propname"), element("prop", asked)]
        parts = [self.chance.choice(questions if self.likely(0.6) else questions[:1])]
        if self.likely(0.2):
            parts.insert(self.chance.randint(0, 1), element("includes", [self.asked_property() for _ in range(self.chance.randint(0, 3))]))
        if self.likely(0.1):
            parts.insert(self.chance.randint(0, len(parts)), self.chance.choice(questions + ["text", element("x"), element("includes",
                [self.property()]), element("include", [self.property()])]))
        return {"element": element("propfind", parts, self.chance.choice(["D", None, "x"]), "DAV:")}

    def kept_property(self):
        """A property that the store keeps somewhere, if there is one."""
        kept = sorted({key for node in self.server.store.nodes.values() for key in node.properties})
        if not kept:
            return self.property()
        namespace, name = self.chance.choice(kept)
        return element(name, [], self.chance.choice(["q", None]), namespace or self.chance.choice([None, ""]))

    def asked_property(self):
        if self.likely(0.04):
            return "text"
        asked = self.property()
        if self.likely(0.06):
            asked["children"] = ["old", element("z", [], None, "urn:z")]
            asked["attributes"] = [["a", "b"]]
        return asked

    def for_proppatch(self, names, request, fields):
        if self.likely(0.06):
            request["body"] = self.chance.choice(["malformed", None, {"text": "x"}, {"element": element("propertyUpdate")},
                {"element": element("propertyupdate")}, {"element": element("propertyupdate", ["x"])}])
            return
        good = self.likely(0.75)
        changes = [self.change(good) for _ in range(self.chance.choice([1, 1, 1, 2, 3]))]
        request["body"] = {"element": element("propertyupdate", changes, "D", self.chance.choice(["DAV:", None]))}

    def change(self, good):
        kind = self.chance.choice(["set", "set", "remove"]) if self.likely(0.97) else self.chance.choice(["Set", "x"])
        properties = [self.changed_property(good) for _ in range(self.chance.choice([0, 1, 1, 1, 2, 3]))]
        parts = [element("prop", properties, "D", "DAV:")]
        if self.likely(0.06):
            parts.append(self.chance.choice([element("prop", [self.changed_property(good)]), "text", element("x", [self.property()]),
                element("Prop", [self.property()])]))
        return element(kind, parts)

    def changed_property(self, good):
        changed = self.property()
        if good and self.likely(0.9):
            name, prefix, namespace = self.chance.choice(STORED)
            changed = element(name, [], prefix, namespace)
        changed["children"] = self.chance.choice([["v"], ["v"], ["en"], ["de-AT, en"], ["v", " w"], [], [""], [element("q", ["r"], "q",
            "urn:q")], ["v", element("q")], ["en,,de"], ["\u00e9"], ["a_b"], ["en\n"], ["\ten , de "], ['<&"\\\u0001\u007f']])
        if good and changed["name"] in ("displayname", "getcontentlanguage"):
            changed["children"] = [self.chance.choice(["en", "de-AT, en"])]
            if self.odd(0.15):
                changed["children"] = [self.chance.choice(["en,", ",en", "en, ,de", "e n", "en\u00e9", "\ten , de ", "en\r\n", "", " ",
                    "en;q=1", "a_b", "-", "1-2,x", "en,\u000bde", "en\u0000"])]
        if self.likely(0.1):
            changed["attributes"] = self.chance.choice([[["xml:lang", "en"]], [["a", "b"], ["a", "c"]], [["xmlns:n", "urn:n"]]])
        return changed

    def for_options(self, names, request, fields):
        pass


DAV_NAMES = ["creationdate", "displayname", "getcontentlanguage", "getcontentlength", "getcontenttype", "getetag", "getlastmodified",
    "lockdiscovery", "resourcetype", "supportedlock",
             "current-user-principal", "quota-available-bytes", "quota-used-bytes", "sync-token", "displayname", "getcontentlanguage"]
WINDOWS_NAMES = ["Win32CreationTime", "Win32FileAttributes", "Win32LastAccessTime", "Win32LastModifiedTime", "Other"]
STORED = [("foo", "n", "urn:n"), ("foo", "m", "urn:m"), ("bar", None, "urn:n"), ("foo", None, None), ("bar", "", ""), ("x", "oc",
    oracle.OWNCLOUD), ("y", "nc", oracle.NEXTCLOUD),
          ("displayname", "D", "DAV:"), ("getcontentlanguage", "D", "DAV:"), ("Win32FileAttributes", "Z", oracle.MICROSOFT), ("\u00e9", "n",
          "urn:\u00e9"), ("z", "n", "urn:n")]
PROPERTIES = [(name, "D", "DAV:") for name in DAV_NAMES] + [("executable", "A", oracle.APACHE), ("other", "A", oracle.APACHE)]
PROPERTIES += [(name, "Z", oracle.MICROSOFT) for name in WINDOWS_NAMES] + STORED[:8] + STORED[:4]


def nest(count, name):
    """Elements in each other: the levels of a script end near the highest of these counts."""
    inner = element("leaf")
    for _ in range(count - 2):
        inner = element("level", [inner])
    return element(name, [inner])


def element(name, children=(), prefix=None, namespace=None):
    made = {"name": name}
    if children:
        made["children"] = list(children)
    if prefix is not None:
        made["prefix"] = prefix
    if namespace is not None:
        made["namespace"] = namespace
    return made


# Scripts as texts


def data_of(script):
    return json.dumps(script, separators=(",", ":"), ensure_ascii=False).encode()


SIGNS = [b"", b'"', b"{", b"}", b"[", b"]", b",", b":", b"0", b"-", b".", b"e", b" ", b"\\", b"n", b"\0", b"\xff", b"1", b"null",
    b"\\ud800", b"\\u0041", b"\\ud83d\\ude00", b"\t", b"\x7f", b"\xef\xbb\xbf"]
VALUES = [None, True, False, 0, 1, -1, 1.0, 2**64, 2**64 - 1, "", "x", "00", [], {}, [None], ["get"], ["Forbidden"], [[]], {"hex": "6"},
    {"hex": "61"}, {"text": "a"}, {"element": {}}, "malformed",
          {"element": {"name": "a"}}, {"element": {"name": "a", "children": [None]}}, {"element": {"name": "a", "attributes": [["a"]]}},
          "/dav", "/a//b", "/%41", "urn:t:1", "DAV:x", "a b", oracle.LAST_MOMENT + 1]
MEMBERS = ["requests", "prefix", "methods", "locks", "next", "alone", "head", "body", "principal", "moment", "token", "refuse", "element",
    "name", "namespace", "attributes", "children", "hex", "text", "more"]


def mutated(chance, script):
    """A script's text with a byte or a value changed: it may be no script any more."""
    short = dict(script, requests=script["requests"][:chance.randint(0, 3)])
    if chance.random() < 0.4:
        data = data_of(short)
        place = chance.randrange(len(data))
        return data[:place] + chance.choice(SIGNS) + data[place + chance.randint(0, 1):]
    copied = json.loads(data_of(short))
    holders = list(holders_in(copied))
    holder = chance.choice(holders)
    if isinstance(holder, dict):
        name = chance.choice(list(holder) if holder and chance.random() < 0.6 else MEMBERS)
        if chance.random() < 0.15:
            holder.pop(name, None)
        else:
            holder[name] = chance.choice(VALUES)
    else:
        holder.insert(chance.randint(0, len(holder)), chance.choice(VALUES))
    return data_of(copied)


def holders_in(value):
    """The lists and objects in some JSON."""
    if isinstance(value, (dict, list)):
        yield value
        for inner in value.values() if isinstance(value, dict) else value:
            yield from holders_in(inner)
