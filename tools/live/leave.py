"""Who has leave to do what by rules of access, and what may be seen of a folder on the way, a second time.

usage: no program; `Rules(text, users)` reads FOLDER/access, `answer(rules, who, request)` is 401, 403, or None where the request has leave or
may look, `seen(rules, who, path, folders)` is what a folder on the way is told with

Nothing here is taken from the program: it is written from the README of dav_access ("The rules"), the table of dav_confined ("Leave") and the
README of dav_seen.
A path is a tuple of names below the prefix: how a request spells it is no matter of this page.
"""
import collections
import urllib.parse

RIGHTS = ("read", "write", "admin")
READS = ("GET", "HEAD", "OPTIONS", "PROPFIND", "UNLOCK", "COPY")
LOOKS = ("GET", "HEAD", "OPTIONS", "PROPFIND")
WRITES = ("PUT", "PATCH", "MKCOL", "DELETE", "PROPPATCH", "LOCK", "MOVE")

# What a request asks for: its method, the paths of its target, of Destination and of the lists of If; of an UNLOCK the locks that it names.
# A target of None is `*`.
Request = collections.namedtuple("Request", "method target destination tagged locks", defaults=(None, (), ()))
# A lock: its path, and whose it is.
Lock = collections.namedtuple("Lock", "path owner")


def names(text):
    """The names of a path as it stands in a URL."""
    return tuple(urllib.parse.unquote(name) for name in text.split("/") if name)


class Rules:
    """Grants: a right at a path and at all below it, for some, of whom None is everybody and "" each user."""

    def __init__(self, text):
        lines = [line.split() for line in text.splitlines() if line.strip() and not line.lstrip().startswith("#")]
        lines = [words for words in lines if words[0] not in ("space", "files")]
        groups = {words[0]: words[2:] for words in lines if words[0].startswith("@")}
        self.grants = []
        for right, path, *whom in (words for words in lines if not words[0].startswith("@")):
            for word in (each for one in whom for each in groups.get(one, [one])):
                someone = {"everybody": None, "users": ""}.get(word, urllib.parse.unquote(word))
                self.grants.append((someone, right, names(path)))

    def may(self, who, right, path):
        """Whether a user, or nobody (None), has a right at a path."""
        return any(
            (someone is None or (who is not None and someone in ("", who)))
            and RIGHTS.index(given) >= RIGHTS.index(right)
            and path[:len(place)] == place
            for someone, given, place in self.grants)

    def sees(self, who, path):
        """Whether a user, or nobody, may see that something is at a path: what is there may be read, or it leads to what may be."""
        return self.may(who, "read", path) or any(
            (someone is None or (who is not None and someone in ("", who))) and place[:len(path)] == path for someone, _, place in self.grants)

    def may_end(self, who, lock):
        """Its own lock, where one may write at the lock's path; another's, where one has the right `admin` there."""
        return self.may(who, "admin", lock.path) or (lock.owner == who and self.may(who, "write", lock.path))


def has_leave(rules, who, request):
    needed = "write" if request.method in WRITES else "read"
    at_target = request.target is None or rules.may(who, needed, request.target)
    at_destination = request.destination is None or rules.may(who, "write", request.destination)
    return (at_target and at_destination and all(rules.may(who, "read", path) for path in request.tagged)
            and all(rules.may_end(who, lock) for lock in request.locks))


def may_look(rules, who, request):
    """Whether a request that has no leave is told of a folder on the way: nobody's isn't, where there are users."""
    return (who is not None and request.method in LOOKS and request.target is not None and rules.sees(who, request.target)
            and all(rules.may(who, "read", path) for path in request.tagged))


def seen(rules, who, path, paths):
    """Of paths those of which a listing of a folder on the way tells: itself, and its members that may be seen."""
    members = {each for each in paths if len(each) == len(path) + 1 and each[:len(path)] == path}
    return {path} | {each for each in members if rules.sees(who, each)}


def answer(rules, who, request):
    """Without leave, nobody is asked who it is (401), and a user is refused (403), who may not look either."""
    if has_leave(rules, who, request) or may_look(rules, who, request):
        return None
    return 401 if who is None else 403
