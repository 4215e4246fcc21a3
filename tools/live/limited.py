"""How much there may be by limits of files and of space, a second time.

usage: no program; `limits_of(text)` reads the lines of FOLDER/access, `refuses(limits, tree, request)` says whether a request adds more than there
may be, `do(tree, request, status)` does what it did, `quota(limits, tree, path)` is what a folder tells of its room

Nothing here is taken from the program: it is written from docs/SERVE.md ("How much there may be"). A path is a tuple of names below the prefix.
"""
import collections

from leave import names

Limit = collections.namedtuple("Limit", "path measure most")
# What a request asks for. `begins` is where the body of a part begins: a place, one before the end where it is below 0, or "end"; None where
# the body is the whole file. What a PROPPATCH does: of each property its namespace, its name and its text, or None where it is removed.
Request = collections.namedtuple("Request", "method target destination body begins depth patches", defaults=(None, b"", None, "infinity", ()))
SCALES = {"k": 1 << 10, "m": 1 << 20, "g": 1 << 30}


def amount(word):
    scale = SCALES.get(word[-1].lower())
    return int(word[:-1]) * scale if scale else int(word)


def limits_of(text):
    lines = (line.split() for line in text.splitlines())
    return [Limit(names(words[1]), words[0], amount(words[2])) for words in lines if words and words[0] in ("files", "space")]


def element(namespace, name, text):
    """How many bytes an element has: those of its namespace, its name and its text."""
    return len(namespace) + len(name) + len(text)


def property_length(key, text):
    """How many bytes a property has: it is known by its namespace and name, and has its element."""
    return len(key[0]) + len(key[1]) + element(*key, text)


class Tree:
    """What is there: of each path the bytes of a file, or None for a folder; and of each path its properties, by namespace and name."""

    def __init__(self):
        self.nodes, self.properties = {(): None}, {}

    def has(self, path):
        return path in self.nodes

    def at_and_below(self, path):
        return {at: data for at, data in self.nodes.items() if at[:len(path)] == path}

    def length(self, path):
        return len(self.nodes.get(path) or b"")

    def used(self, measure, path):
        found = self.at_and_below(path)
        if measure == "files":
            return len(found)
        stored = sum(property_length(key, text) for at in found for key, text in self.properties.get(at, {}).items())
        return stored + sum(len(data or b"") for data in found.values())

    def remove(self, path):
        for at in self.at_and_below(path):
            del self.nodes[at]
            self.properties.pop(at, None)


def begin_of(tree, request):
    """Where the body of a part begins."""
    length = tree.length(request.target)
    if request.begins == "end":
        return length
    return max(0, length + request.begins) if request.begins < 0 else request.begins


def length_after(tree, request):
    """How long the file at the target is when the body has been written."""
    length = tree.length(request.target)
    if request.begins is None:
        return len(request.body)
    begins = begin_of(tree, request)
    return max(length, begins + len(request.body)) if request.body else length


def added(tree, request):
    """Where a request adds something, and how many files and bytes."""
    if request.method in ("PUT", "PATCH"):
        more = length_after(tree, request) - tree.length(request.target)
        if (request.begins or 0) != "end" and (request.begins or 0) < 0:  # a part that is told from the end counts as appended
            more = len(request.body)
        return request.target, {"files": int(not tree.has(request.target)), "space": max(0, more)}
    if request.method in ("MKCOL", "LOCK"):
        return request.target, {"files": int(not tree.has(request.target)), "space": 0}
    if request.method == "PROPPATCH":
        parts = [element(*patch) for patch in request.patches if patch[2] is not None]
        # (D:set and D:prop, with their prefix and namespace)
        return request.target, {"files": 0, "space": 2 * (len("setDDAV:") + len("propDDAV:") + sum(parts)) if parts else 0}
    if request.method in ("COPY", "MOVE"):
        return request.destination, {measure: tree.used(measure, request.target) for measure in ("files", "space")}
    return request.target, {"files": 0, "space": 0}


def refusing(limits, tree, request):
    """The limits by which a request adds too much."""
    place, more = added(tree, request)
    return [limit for limit in limits
            if more[limit.measure] and place[:len(limit.path)] == limit.path
            and not (request.method == "MOVE" and request.target[:len(limit.path)] == limit.path)
            and tree.used(limit.measure, limit.path) + more[limit.measure] > limit.most]


def refuses(limits, tree, request):
    return bool(refusing(limits, tree, request))


def do(tree, request, status):
    """Does what a request did, by its status."""
    method, target, to = request.method, request.target, request.destination
    if method == "MOVE" and status == 403 and to[:len(target)] == target != to:
        tree.remove(to)  # what a MOVE below itself was to replace is gone before it is refused
    if method == "PROPPATCH" and status == 207:
        for namespace, name, text in request.patches:
            stored = tree.properties.setdefault(target, {})
            stored.pop((namespace, name), None)
            if text is not None:
                stored[namespace, name] = text
    if status not in (200, 201, 204):
        return
    if method in ("PUT", "PATCH"):
        data, before = request.body, tree.nodes.get(target) or b""
        if request.begins is not None:
            begins = begin_of(tree, request)
            data = before[:begins].ljust(begins, b"\0") + data + before[begins + len(data):] if data else before
        tree.nodes[target] = data
    elif method == "MKCOL":
        tree.nodes[target] = None
    elif method == "LOCK":
        tree.nodes.setdefault(target, b"")
    elif method == "DELETE":
        tree.remove(target)
    elif method in ("COPY", "MOVE"):
        if request.depth != "0" or tree.nodes.get(to) is not None:  # a folder that is there stays where only a folder itself is copied
            tree.remove(to)
        taken = {at[len(target):]: data for at, data in tree.at_and_below(target).items() if request.depth != "0" or at == target}
        # (a COPY takes the properties of files along, and none of folders: docs/DEVIATIONS.md)
        stored = {at: dict(tree.properties.get(target + at, {})) for at, data in taken.items() if method == "MOVE" or data is not None}
        if method == "MOVE":
            tree.remove(target)
        tree.nodes.update((to + at, data) for at, data in taken.items())
        tree.properties.update((to + at, properties) for at, properties in stored.items())


def quota(limits, tree, path):
    """The room that a folder tells of: how many bytes are left (None: what the disk has), and which used bytes go with it."""
    space = [limit for limit in limits if limit.measure == "space" and path[:len(limit.path)] == limit.path]
    if not space:
        return None, {tree.used("space", ())}
    left = {limit: max(0, limit.most - tree.used("space", limit.path)) for limit in space}
    return min(left.values()), {tree.used("space", limit.path) for limit in space if left[limit] == min(left.values())}
