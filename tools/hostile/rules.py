"""Rules that hold of each run of a script, whatever the store refused in it, for tools/hostile/hostile.

usage: no program; `Watched(script).data` is a script with a look at each path before its first request and after each, and
`Watched(script).check(status, lines)` raises `Wrong` where what the program wrote for it breaks a rule

A look is a GET and a PROPFIND at Depth 1 of each path that the script's requests may make. Nothing is taken from the oracle or from another
run: what is held against a rule is the request, its reply, and what the looks before and after it show. Each rule stands in plain words
where it is applied, with its section of the standard where there is one. The scripts are plain ones: text heads, targets that are paths, no
prefix, exclusive locks, bodies of text; a PATCH is one of a range that has a beginning and no end.
"""
import collections
import functools
import json
import urllib.parse

DEEPEST = 3  # names in a path that is looked at; what is deeper is seen in the list of its folder
PROPERTIES = ["resourcetype", "getetag", "getcontentlength", "lockdiscovery"]
Node = collections.namedtuple("Node", "is_folder tag data dead")
Told = collections.namedtuple("Told", "names is_folder tag length dead tokens")
Lock = collections.namedtuple("Lock", "names deep token principal")
Look = collections.namedtuple("Look", "nodes tokens")


class Wrong(Exception):
    """What a run did that it must not do."""


def need(condition, *words):
    if not condition:
        raise Wrong(" ".join(str(word) for word in words))


# Paths


def named(text):
    """The names of the path that a target tells, or 400 or 403 where it tells none: a piece is decoded (RFC 3986, 2.1; a `%` without two
    hexadecimal digits is itself), and then it is nothing, a step up, or a name (5.2.4). A zero byte or a slash is in no name."""
    if not text.startswith("/"):
        return 400
    names = []
    for piece in text.split("/"):
        name = urllib.parse.unquote_to_bytes(piece)
        if b"\0" in name or b"/" in name:
            return 400
        if name == b"..":
            if not names:
                return 403
            names.pop()
        elif name not in (b"", b"."):
            names.append(name)
    return tuple(names)


def url(names):
    """A text of a path (RFC 3986, 3.3)."""
    return "/" + "/".join(urllib.parse.quote(name, safe="") for name in names)


def is_within(names, top):
    """Whether a path is at or below another."""
    return names[:len(top)] == top


def is_near(names, some):
    """Whether a path is at, above or below one of some."""
    return any(is_within(names, one) or is_within(one, names) for one in some)


# Requests


class Asked:
    """What a request asks for."""

    def __init__(self, request):
        self.head = request["head"]
        line, *fields = self.head.split("\r\n")
        values = dict(field.split(": ", 1) for field in fields if field)
        self.method, target, _ = line.split(" ")
        self.names = named(target)
        self.destination = named(values["Destination"]) if "Destination" in values else None
        self.deep = values.get("Depth") != "0"
        self.principal = request.get("principal")
        self.token = request.get("token")
        body = request.get("body") or {}
        self.grants = self.method == "LOCK" and "element" in body
        self.data = body.get("text", "").encode()
        self.begin = int(values["X-Update-Range"].split("=")[1].rstrip("-")) if "X-Update-Range" in values else 0
        entries = request.get("refuse") or []
        self.refused = [place for place, entry in enumerate(entries, 1) if entry is not None]

    def names_lock(self, lock):
        """Whether it is its holder's: it names the lock's token, under the principal to whom the lock was granted (RFC 4918, 6.4)."""
        return f"<{lock.token}>" in self.head and self.principal == lock.principal


def paths_of(requests):
    """Each path that some requests can make, with all above it: their targets and destinations, and what a copy makes below its place."""
    asked = [Asked(request) for request in requests]
    paths = {()} | {one.names for one in asked} | {one.destination for one in asked if one.destination}
    for _ in range(2):
        for one in asked:
            if one.destination:
                paths |= {one.destination + names[len(one.names):] for names in paths if is_within(names, one.names)}
    return tuple(sorted({names[:length] for names in paths for length in range(len(names) + 1) if len(names) <= DEEPEST}))


# Replies


@functools.lru_cache(maxsize=50000)
def reply_of(line):
    return json.loads(line)


def status_of(line):
    return reply_of(line)["status"]


def children(element, name):
    return [child for child in element["children"] if isinstance(child, dict) and child["name"] == name]


def text_in(element):
    return "".join(child for child in element["children"] if isinstance(child, str))


def texts_at(element, *names):
    """The texts of the elements that some names lead to."""
    found = [element]
    for name in names:
        found = [child for one in found for child in children(one, name)]
    return [text_in(one) for one in found]


def responses(line):
    return children(reply_of(line)["body"]["element"], "response")


def failed_paths(asked, line):
    """The paths that a reply reports with an error: those that a 207 lists, else the target (RFC 4918, 13)."""
    status = status_of(line)
    if status != 207:
        return {asked.names} if status >= 400 else set()
    found = [(named(texts_at(one, "href")[0]), int(texts_at(one, "status")[0].split(" ")[1])) for one in responses(line)]
    need(found, "a 207 lists nothing")
    return {names for names, status in found if status >= 400}


def told_by(response):
    """What a response of a PROPFIND tells of a resource."""
    properties = {}
    for part in children(response, "propstat"):
        need(texts_at(part, "status") == ["HTTP/1.1 200 OK"], "a property has another status than 200")
        for prop in children(part, "prop"):
            properties.update({(one["namespace"], one["name"]): one for one in prop["children"]})
    of_dav = {name: one for (namespace, name), one in properties.items() if namespace in (None, "DAV:")}
    dead = tuple(sorted((*key, json.dumps(one)) for key, one in properties.items() if key[0] not in (None, "DAV:")))
    is_folder = bool(children(of_dav["resourcetype"], "collection"))
    length = text_in(of_dav["getcontentlength"]) if "getcontentlength" in of_dav else None
    tokens = tuple(sorted(texts_at(of_dav["lockdiscovery"], "activelock", "locktoken", "href")))
    return Told(named(texts_at(response, "href")[0]), is_folder, text_in(of_dav["getetag"]), length, dead, tokens)


@functools.lru_cache(maxsize=50000)
def told_in(line):
    """What a PROPFIND tells: a resource, and then its members; nothing where there is none."""
    status = status_of(line)
    need(status in (207, 404), "a PROPFIND is answered", status)
    return tuple(told_by(response) for response in responses(line)) if status == 207 else ()


@functools.lru_cache(maxsize=50000)
def got_in(line):
    """What a GET tells: a tag and bytes, "folder", or nothing."""
    reply = reply_of(line)
    need(reply["status"] in (200, 404, 405), "a GET is answered", reply["status"])
    if reply["status"] == 200:
        return reply["headers"]["etag"], bytes.fromhex((reply["body"] or {"hex": ""})["hex"])
    return "folder" if reply["status"] == 405 else None


# Looks


def prop(name):
    return {"name": name, "namespace": "DAV:"}


ASKED = {"element": {**prop("propfind"), "children": [{**prop("prop"), "children": [prop(name) for name in PROPERTIES]}]}}


def look_requests(paths):
    for names in paths:
        yield {"head": f"GET {url(names)} HTTP/1.1\r\n\r\n", "moment": 1}
        yield {"head": f"PROPFIND {url(names)} HTTP/1.1\r\nDepth: 1\r\n\r\n", "body": ASKED, "moment": 1}


@functools.lru_cache(maxsize=20000)
def look_of(paths, lines):
    """What a look shows, once its replies agree with each other."""
    got = {names: got_in(lines[2 * place]) for place, names in enumerate(paths)}
    told = {names: told_in(lines[2 * place + 1]) for place, names in enumerate(paths)}
    for names in paths:
        need_one_answer(names, got[names], told[names])
        need_members(names, told)
    nodes = {names: node_of(got[names], told[names][0]) for names in paths if told[names]}
    need(() in nodes and nodes[()].is_folder, "the root is no folder")
    tags = [node.tag for node in nodes.values()]
    need(len(set(tags)) == len(tags), "two resources show one tag at once")
    return Look(nodes, {names: told[names][0].tokens for names in nodes})


def node_of(got, own):
    return Node(own.is_folder, own.tag, None if own.is_folder else got[1], own.dead)


def need_one_answer(names, got, told):
    """GET and PROPFIND of a path find the same: nothing, a folder, or a file of the same tag and length, which has no members."""
    if got is None or not told:
        need(got is None and not told, f"of GET and PROPFIND of {url(names)} only one finds something")
        return
    own = told[0]
    need(own.names == names, f"PROPFIND of {url(names)} tells first of {url(own.names)}")
    need(own.is_folder == (got == "folder"), f"GET and PROPFIND of {url(names)} disagree whether it is a folder")
    if not own.is_folder:
        need(own.tag == got[0], f"GET of {url(names)} shows the tag {got[0]}, PROPFIND {own.tag}")
        need(own.length == str(len(got[1])), f"GET of {url(names)} shows {len(got[1])} bytes, PROPFIND {own.length}")
        need(len(told) == 1, f"the file {url(names)} has members")


def need_members(names, told):
    """A folder's members are those right below it, each once, in the order of their names, and each as it tells of itself; what is there
    is a member of a folder that is there."""
    members = told[names][1:]
    listed = [member.names for member in members]
    need(listed == sorted(set(listed)), f"the members of {url(names)} aren't in order, each once")
    for member in members:
        need(member.names[:-1] == names, f"{url(member.names)} is told as a member of {url(names)}")
        need(member.names in told, f"{url(member.names)} is there, which no request can have made")
        need(told[member.names] and told[member.names][0] == member, f"{url(member.names)} tells other things of itself than its folder does")
    if names and told[names]:
        above = told[names[:-1]]
        need(above and above[0].is_folder, f"{url(names)} is there, and no folder above it")
        need(any(member.names == names for member in above[1:]), f"{url(names)} is there, and its folder doesn't list it")


# Steps: what a request may change, by its reply


class Step:
    """A request with its reply, and what the looks before and after it show."""

    def __init__(self, asked, line, before, after):
        self.asked = asked
        self.line = line
        self.status = status_of(line)
        self.before = before.nodes
        self.after = after.nodes
        self.changed = {names for names in {*self.before, *self.after} if self.before.get(names) != self.after.get(names)}
        self.old_tags = {node.tag for node in self.before.values()}

    def check(self):
        asked, name = self.asked, self.asked.method.lower()
        if self.status >= 400 and not asked.refused:
            need(not self.changed, "an error, without a refused call, and a change")
        getattr(self, name, self.nothing)()

    def nothing(self):
        """Other methods change nothing (RFC 9110, 9.2.1; RFC 4918, 9.1)."""
        need(not self.changed, f"{self.asked.method} changes {[url(names) for names in self.changed]}")

    def need_within(self, *tops):
        for names in self.changed:
            need(any(is_within(names, top) for top in tops), f"{self.asked.method} changes {url(names)}")

    def is_new(self, names, data):
        """Whether a path holds a file with these bytes and a tag that nothing showed before."""
        node = self.after.get(names)
        return node is not None and not node.is_folder and node.data == data and node.tag not in self.old_tags

    def mkcol(self):
        """A folder where nothing was, or no change (RFC 4918, 9.3)."""
        names, node = self.asked.names, self.after.get(self.asked.names)
        if self.status != 201:
            need(not self.changed, f"MKCOL is answered {self.status}, and something changes")
            return
        need(self.changed == {names} and names not in self.before, "MKCOL is answered 201, and more than its folder changes")
        need(node.is_folder and not node.dead and node.tag not in self.old_tags, "MKCOL makes no new folder")

    def put(self):
        """Its file has the body and a new tag (RFC 9110, 9.3.4). After an error nothing changes, but where the third call is refused, the
        write, the file may be empty, and where the fourth is, the flush, it may have the body; then too it has a new tag."""
        names, data = self.asked.names, self.asked.data
        need(self.changed <= {names}, "PUT changes more than its file")
        if self.status in (201, 204):
            need(self.is_new(names, data), f"PUT is answered {self.status}, and its file hasn't the body and a new tag")
            tag = reply_of(self.line)["headers"].get("etag")
            need(tag is None and self.asked.refused or tag == self.after[names].tag, f"PUT answers the tag {tag}, its file has another")
        elif self.changed:
            left = {3: b"", 4: data}.get(self.asked.refused[0])
            need(left is not None and self.is_new(names, left), f"PUT is answered {self.status}, and leaves more than the calls before did")

    def patch(self):
        """Its file has the body in place of the bytes from the beginning of the range on, and a new tag. After an error nothing changes, but
        where the fifth call is refused, the flush."""
        names, old = self.asked.names, self.before.get(self.asked.names)
        bytes_before = old.data if old and not old.is_folder else b""
        end = self.asked.begin + len(self.asked.data)
        data = bytes_before[:self.asked.begin].ljust(self.asked.begin, b"\0") + self.asked.data + bytes_before[end:]
        need(self.changed <= {names}, "PATCH changes more than its file")
        if self.status in (201, 204):
            need(self.is_new(names, data), f"PATCH is answered {self.status}, and its file hasn't those bytes and a new tag")
        elif self.changed:
            made = old is None and self.asked.refused[0] in (3, 4) and self.is_new(names, b"")
            need(made or self.asked.refused[0] == 5 and self.is_new(names, data), f"PATCH is answered {self.status}, and something changes")

    def lock(self):
        """It makes an empty file where nothing is (RFC 4918, 7.3), and changes nothing else."""
        if self.status == 201:
            need(self.asked.names in self.after, "LOCK is answered 201, and nothing is there")
            need(self.changed <= {self.asked.names}, "LOCK changes more than its file")
            need(not self.changed or self.asked.names not in self.before and self.is_new(self.asked.names, b""), "LOCK makes no empty file")
        else:
            need(not self.changed, f"LOCK is answered {self.status}, and something changes")

    def need_removals(self, top, failed):
        """Some of what was at or below a path goes, and the rest is as before. What stays is at, above or below a reported path, and what is
        reported stays (RFC 4918, 9.6.1)."""
        for names in self.before:
            if is_within(names, top):
                need(names not in self.after or names not in self.changed, f"{url(names)} is neither as before nor gone")
                need(names not in self.after or is_near(names, failed), f"{url(names)} stays, and isn't reported")
                need(names in self.after or names not in failed, f"{url(names)} is reported, and is gone")
        need(all(names in self.before for names in self.after if is_within(names, top)), f"below {url(top)} there is something new")

    def delete(self):
        """All at or below goes, or what is reported stays."""
        self.need_within(self.asked.names)
        failed = failed_paths(self.asked, self.line)
        need(all(is_within(names, self.asked.names) for names in failed), "DELETE reports a path that isn't at or below its target")
        if failed and not self.asked.deep:
            need(not self.changed, "DELETE at Depth 0 fails, and something changes")
        self.need_removals(self.asked.names, failed)

    def images(self):
        """For each path that a COPY or a MOVE takes along, where it comes to be: what is at or below the source and not at or below the
        destination."""
        source, target = self.asked.names, self.asked.destination
        return {
            names: target + names[len(source):]
            for names in self.before
            if is_within(names, source) and not is_within(names, target)
        }

    def is_copy(self, names, image):
        """Whether one path now holds a copy of the other: the same bytes and a new tag, of a file its properties, of a folder none."""
        old, node = self.before[names], self.after.get(image)
        if node is None or node.tag in self.old_tags or node.is_folder != old.is_folder:
            return False
        return node.data == old.data and node.dead == (() if node.is_folder else old.dead)

    def copy(self):
        """All is copied, or what is missing is reported, and what is reported isn't there; nothing changes but at or below the destination
        (RFC 4918, 9.8)."""
        source, target = self.asked.names, self.asked.destination
        need(is_within(source, target) or all(not is_within(names, source) or is_within(names, target) for names in self.changed),
             "COPY changes its source")
        self.need_within(target)
        failed, images = failed_paths(self.asked, self.line), self.images()
        made = {images[names] for names in images if self.is_copy(names, images[names])}
        kept = {names for names in self.after if names not in self.changed}
        need(all(names in made | kept for names in self.after), "COPY leaves something that is no copy and wasn't there")
        for names in failed:
            is_file = names in self.before and not self.before[names].is_folder
            need(not (is_file and images.get(names) in made), f"COPY reports {url(names)}, and copies it")
            need(names in self.before or names not in self.after, f"COPY reports {url(names)}, and makes it")
        if not failed:
            there = {names for names in self.after if is_within(names, target)}
            need(there == made == set(images.values()), "COPY succeeds, and its destination isn't the source")
        elif target not in self.before:
            missing = [names for names in images if images[names] not in made]
            reported = all(any(is_within(names, one) or is_within(images[names], one) for one in failed) for names in missing)
            need(reported, "COPY leaves something out that it doesn't report")

    def move(self):
        """All is at the destination with its tags, or all is at the source; then of the destination some may be gone (RFC 4918, 9.9)."""
        source, target = self.asked.names, self.asked.destination
        self.need_within(source, target)
        failed, images = failed_paths(self.asked, self.line), self.images()
        if failed:
            need(not any(is_within(names, source) for names in self.changed), "MOVE fails, and its source changes")
            need(all(names in self.before and names not in self.after for names in self.changed), "MOVE fails, and not only removes")
            return
        need(not any(is_within(names, source) for names in self.after), "MOVE succeeds, and its source stays")
        moved = {images[names]: self.before[names] for names in images}
        there = {names: node for names, node in self.after.items() if is_within(names, target)}
        need(there == moved, "MOVE succeeds, and its destination isn't what was at the source")

    def proppatch(self):
        """All properties are set, or none (RFC 4918, 9.2); nothing else changes."""
        names = self.asked.names
        need(self.changed <= {names}, "PROPPATCH changes something else")
        failed = [text for one in responses(self.line) for text in texts_at(one, "propstat", "status") if " 200 " not in text] \
            if self.status == 207 else [self.status]
        if failed or not self.changed:
            need(not self.changed, "PROPPATCH fails, and something changes")
        else:
            need(self.before[names]._replace(dead=()) == self.after[names]._replace(dead=()), "PROPPATCH changes more than properties")


class LockList:
    """The locks that were granted by the replies, in order."""

    def __init__(self):
        self.locks = []

    def need_kept(self, step):
        """Without its token an exclusive lock isn't passed: what it covers stays, and so do the names in its folder (RFC 4918, 7 and 7.4)."""
        for lock in self.locks:
            if step.asked.names_lock(lock):
                continue
            for names in step.changed:
                covered = names == lock.names or lock.deep and is_within(names, lock.names)
                need(not covered, f"{url(names)} changes, under another's lock")
                is_member = names[:-1] == lock.names and names != ()
                comes_or_goes = (names in step.before) != (names in step.after)
                need(not (is_member and comes_or_goes), f"{url(names)} comes or goes, under another's lock of its folder")

    def follow(self, step):
        """A lock is granted by a 200 or 201, and ends by UNLOCK and with what it is on (RFC 4918, 6.1)."""
        asked, fine = step.asked, step.status in (200, 201, 204)
        if asked.grants and fine:
            self.locks.append(Lock(asked.names, asked.deep, asked.token, asked.principal))
        if asked.method == "UNLOCK" and fine:
            self.locks = [lock for lock in self.locks if f"<{lock.token}>" not in asked.head]
        if asked.method in ("DELETE", "MOVE") and fine:
            self.end(asked.names)
        if asked.destination is not None and asked.destination in step.before and (fine or asked.destination not in step.after):
            self.end(asked.destination)

    def end(self, top):
        self.locks = [lock for lock in self.locks if not is_within(lock.names, top)]

    def need_shown(self, look):
        """Each resource tells the locks that cover it (RFC 4918, 15.8), so none that was refused."""
        for names, tokens in look.tokens.items():
            covering = sorted(lock.token for lock in self.locks if lock.names == names or lock.deep and is_within(names, lock.names))
            need(list(tokens) == covering, f"{url(names)} tells the locks {list(tokens)}, and those granted are {covering}")


# Whole runs


class Watched:
    """A script with a look at each path before its first request and after each."""

    def __init__(self, script):
        self.script = script
        self.asked = [Asked(request) for request in script["requests"]]
        self.paths = paths_of(script["requests"])
        self.stride = 2 * len(self.paths) + 1
        look = list(look_requests(self.paths))
        requests = [*look]
        for request in script["requests"]:
            requests += [request, *look]
        self.count = len(requests)
        whole = dict(script, requests=requests)
        if "alone" in script:
            whole["alone"] = self.place(script["alone"])
        self.data = json.dumps(whole).encode()

    def place(self, number):
        """Where a request of the script stands among all."""
        return self.stride - 1 + number * self.stride

    def own(self, lines):
        """The lines of the script's own requests, and then those of the run alone."""
        return [lines[self.place(number)] for number in range(len(self.asked))] + self.alone(lines)

    def alone(self, lines):
        rest = lines[self.count:]
        return [json.dumps({"alone": self.script["alone"]}, separators=(",", ":"))] + rest[1:] if rest else []

    def check(self, status, lines):
        need(status == 0, "it ends with status", status)
        need(len(lines) >= self.count, "a request isn't answered")
        looks = [self.look(lines, number) for number in range(len(self.asked) + 1)]
        need(set(looks[0].nodes) == {()}, "a new server isn't empty")
        locks = LockList()
        for number, asked in enumerate(self.asked):
            step = Step(asked, lines[self.place(number)], looks[number], looks[number + 1])
            try:
                step.check()
                locks.need_kept(step)
                locks.follow(step)
                locks.need_shown(looks[number + 1])
            except Wrong as wrong:
                raise Wrong(f"request {number}, {asked.method} {url(asked.names)}: {wrong}") from None
        self.need_one_content_each(lines)
        self.need_same_alone(lines)

    def look(self, lines, number):
        """The look after so many of the script's requests."""
        first = number * self.stride
        try:
            return look_of(self.paths, tuple(lines[first:first + self.stride - 1]))
        except Wrong as wrong:
            raise Wrong(f"after {number} requests: {wrong}") from None

    def need_one_content_each(self, lines):
        """Of two GETs anywhere in a run that show one strong tag, both show the same bytes (RFC 9110, 8.8.1)."""
        shown = {}
        gets = [lines[first + 2 * place] for first in range(0, self.count, self.stride) for place in range(len(self.paths))]
        gets += [lines[self.place(number)] for number, asked in enumerate(self.asked) if asked.method == "GET"]
        for line in set(gets):
            if status_of(line) == 200:
                tag, data = got_in(line)
                need(shown.setdefault(tag, data) == data, f"the tag {tag} is shown with {shown[tag]} and with {data}")

    def need_same_alone(self, lines):
        """Who was granted a deep lock on a folder gets the same statuses and bytes when its requests run alone."""
        if "alone" not in self.script:
            need(len(lines) == self.count, "there are more lines than requests")
            return
        first = self.script["alone"]
        lock = Lock(self.asked[first].names, True, self.asked[first].token, self.asked[first].principal)
        chosen = [number for number in range(first + 1, len(self.asked)) if self.asked[number].names_lock(lock)]
        alone = lines[self.count + 1:]
        need(lines[self.count:self.count + 1] == [json.dumps({"alone": self.place(first)}, separators=(",", ":"))], "no line says `alone`")
        need(len(alone) == len(chosen), f"alone run {len(alone)} requests, and {len(chosen)} name the token")
        if status_of(lines[self.place(first)]) == 200:
            for number, line in zip(chosen, alone):
                other = reply_of(lines[self.place(number)])
                same = (other["status"], other["body"]) == (status_of(line), reply_of(line)["body"])
                need(same, f"request {number} is answered {other['status']}, and alone {status_of(line)}")
