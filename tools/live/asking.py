"""Requests as clients send them, each on a connection of its own, and what is read in their answers."""
import datetime
import email.utils
import http.client
import os
import re
import socket
import time
import urllib.parse
import xml.etree.ElementTree as ET

DAV = "{DAV:}"
WIN32 = "{urn:schemas-microsoft-com:}"
DONE = (200, 201, 204)


class Reply:
    """A status, the fields of a head and a body; of a multistatus what each propstat tells."""

    def __init__(self, status, headers, body):
        self.status, self.headers, self.body = status, headers, body

    def __str__(self):
        words = self.body[:400].decode("utf-8", "replace") if "xml" in self.kind() else f"{len(self.body)} bytes"
        return f"{self.status} {dict(self.headers)} {words}"

    def field(self, name):
        return self.headers.get(name) or ""

    def kind(self):
        """The media type, without its parameters."""
        return self.field("Content-Type").partition(";")[0].strip().lower()

    def told(self, path):
        """The properties that are told of a path: for each name its status and its element."""
        found = {}
        for response in ET.fromstring(self.body).findall(f"{DAV}response"):
            href = urllib.parse.unquote(urllib.parse.urlparse(response.findtext(f"{DAV}href").strip()).path)
            if href.rstrip("/") == path.rstrip("/"):
                for stat in response.findall(f"{DAV}propstat"):
                    status = int(stat.findtext(f"{DAV}status").split()[1])
                    found.update((element.tag, (status, element)) for element in stat.find(f"{DAV}prop"))
        return found

    def text(self, path, name):
        """The text of a property that is there, or nothing."""
        status, element = self.told(path).get(name, (404, None))
        return (element.text or "").strip() if status == 200 else ""

    def hrefs(self):
        return [urllib.parse.unquote(it.text.strip()) for it in ET.fromstring(self.body).iterfind(f"{DAV}response/{DAV}href")]

    def part(self):
        """The first and last place and the whole length that Content-Range tells."""
        found = re.fullmatch(r"bytes (\d+)-(\d+)/(\d+)", self.field("Content-Range"))
        return tuple(map(int, found.groups())) if found else None


class Client:
    """One who asks a server, with the fields that it sends each time."""

    def __init__(self, site, agent, **fields):
        self.site, self.port = site, site.port
        self.fields = {"User-Agent": agent, **{name.replace("_", "-"): value for name, value in fields.items()}}

    def ask(self, method, path, body=None, headers=None):
        link = http.client.HTTPConnection("127.0.0.1", self.port, timeout=30)
        try:
            link.request(method, urllib.parse.quote(path), body, {**self.fields, **(headers or {})})
            reply = link.getresponse()
            return Reply(reply.status, reply.headers, reply.read())
        except http.client.HTTPException as error:
            raise OSError(f"{method} {path}: {error!r}") from error
        finally:
            link.close()

    def see(self, what, reply, *statuses):
        return self.site.see(what, reply.status in statuses, reply)

    def get(self, path, **fields):
        return self.ask("GET", path, None, {name.replace("_", "-"): value for name, value in fields.items()})

    def propfind(self, path, depth, *names, **fields):
        """Asks for properties by name, `{namespace}local`; for all where none is told."""
        body = None
        if names:
            asked = ET.Element(f"{DAV}propfind")
            within = ET.SubElement(asked, f"{DAV}prop")
            for name in names:
                ET.SubElement(within, name)
            body = ET.tostring(asked, "utf-8", xml_declaration=True)
        return self.ask("PROPFIND", path, body, {"Depth": depth, "Content-Type": "text/xml", **fields})

    def lock(self, path, timeout="Second-600", **fields):
        """Locks a path, and gives the reply and the token of its field, in brackets."""
        body = ('<?xml version="1.0" encoding="utf-8"?><D:lockinfo xmlns:D="DAV:"><D:lockscope><D:exclusive/></D:lockscope><D:locktype>'
                "<D:write/></D:locktype><D:owner><D:href>anna</D:href></D:owner></D:lockinfo>")
        reply = self.ask("LOCK", path, body, {"Timeout": timeout, "Content-Type": "text/xml", "Depth": "0", **fields})
        return reply, reply.field("Lock-Token").strip()

    def put_awaited(self, path, pieces, headers):
        """A PUT in chunks that waits for 100 before it sends them; gives whether 100 came, and the reply."""
        fields = {"Host": f"127.0.0.1:{self.port}", **self.fields, **headers, "Expect": "100-continue", "Transfer-Encoding": "chunked"}
        head = f"PUT {urllib.parse.quote(path)} HTTP/1.1\r\n" + "".join(f"{name}: {value}\r\n" for name, value in fields.items())
        with socket.create_connection(("127.0.0.1", self.port), timeout=10) as link:
            link.sendall(head.encode() + b"\r\n")
            first = link.recv(12)
            for piece in [*pieces, b""]:
                link.sendall(b"%x\r\n%s\r\n" % (len(piece), piece))
            reply = rest_of(link, b"" if b" 100" in first else first)
            return b" 100" in first, reply


def rest_of(link, begun):
    """The reply that follows on a connection after what came of it, without any 100 before it."""
    if not begun:
        while not begun.endswith(b"\r\n\r\n"):
            begun += link.recv(1)
        begun = b""
    file = link.makefile("rb")
    line = (begun + file.readline()).decode("ascii")
    headers = http.client.parse_headers(file)
    return Reply(int(line.split()[1]), headers, file.read(int(headers.get("Content-Length") or 0)))


def moment(text):
    """The seconds of a date of HTTP in the form that is to be sent (RFC 9110, 5.6.7), or nothing."""
    if re.fullmatch(r"[A-Z][a-z]{2}, \d\d [A-Z][a-z]{2} \d{4} \d\d:\d\d:\d\d GMT", text):
        return email.utils.parsedate_to_datetime(text).timestamp()
    return None


def http_date(seconds):
    return email.utils.formatdate(seconds, usegmt=True)


def is_rfc3339(text):
    try:
        return bool(datetime.datetime.fromisoformat(text)) and "T" in text
    except ValueError:
        return False


def grow_old():
    """Waits until what was just written is older than a second: till then its date, and Apache's tag, are weak (RFC 9110, 8.8.2.2)."""
    time.sleep(2.1)


def random_bytes(length):
    return os.urandom(length)
