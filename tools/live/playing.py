"""Sessions of clients that read files in parts or keep what they read: players, phones, browsers. Each is written as the requests that it sends."""
import socket

from asking import DAV, DONE, Client, grow_old, http_date, moment, random_bytes
from mounting import QUOTA, all_told

LENGTH = 300_000
OFFICE = "application/vnd.openxmlformats-officedocument."
# Media types as IANA has them; of those that changed the earlier name too.
TYPES = {
    "txt": ["text/plain"], "html": ["text/html"], "css": ["text/css"], "js": ["text/javascript", "application/javascript"],
    "json": ["application/json"], "xml": ["application/xml", "text/xml"], "csv": ["text/csv"], "md": ["text/markdown"], "ics": ["text/calendar"],
    "vcf": ["text/vcard", "text/x-vcard"], "pdf": ["application/pdf"], "epub": ["application/epub+zip"], "zip": ["application/zip"],
    "gz": ["application/gzip", "application/x-gzip"], "png": ["image/png"], "jpg": ["image/jpeg"], "jpeg": ["image/jpeg"], "JPG": ["image/jpeg"],
    "gif": ["image/gif"], "webp": ["image/webp"], "tiff": ["image/tiff"], "heic": ["image/heic"], "svg": ["image/svg+xml"],
    "mp4": ["video/mp4"], "webm": ["video/webm"], "mov": ["video/quicktime"], "mp3": ["audio/mpeg"], "flac": ["audio/flac", "audio/x-flac"],
    "woff2": ["font/woff2"], "docx": [f"{OFFICE}wordprocessingml.document"], "xlsx": [f"{OFFICE}spreadsheetml.sheet"],
    "pptx": [f"{OFFICE}presentationml.presentation"], "odt": ["application/vnd.oasis.opendocument.text"],
}
# Documents in which scripts may run.
ACTING = ["text/html", "application/xhtml+xml", "image/svg+xml", "text/xml", "application/xml"]


def see_part(client, what, reply, body, first, last):
    """A 206 with the bytes from one place to another, each of its fields right (RFC 9110, 14.4 and 15.3.7)."""
    holds = reply.status == 206 and reply.part() == (first, last, len(body)) and reply.body == body[first:last + 1]
    client.site.see(what, holds and reply.field("Content-Length") == str(last - first + 1), reply)


def see_whole(client, what, reply, body):
    client.site.see(what, reply.status == 200 and reply.body == body and not reply.part(), reply)


def ios(site):
    """A film, as CFNetwork and AVPlayer ask for it: two bytes first, by which they see whether it can be played."""
    client = Client(site, "AppleCoreMedia/1.0.0.20G75 (iPhone; U; CPU OS 16_6 like Mac OS X; en_us)", Accept_Encoding="identity")
    body, path = random_bytes(LENGTH), "/film.mp4"
    client.see("the film", client.ask("PUT", path, body), 201)
    grow_old()
    first = client.get(path, Range="bytes=0-1", X_Playback_Session_Id="8F1C")
    see_part(client, "the first two bytes", first, body, 0, 1)
    site.see("its type", first.kind() == "video/mp4", first)
    site.see("its fields (RFC 9110, 15.3.7)", first.status == 206 and first.field("ETag") and first.field("Date"), first)
    tag, date = client.ask("HEAD", path).field("ETag"), client.ask("HEAD", path).field("Last-Modified")
    rows = [
        ("all, as a range", f"bytes=0-{LENGTH - 1}", 0, LENGTH - 1), ("from a place on", f"bytes={LENGTH - 9}-", LENGTH - 9, LENGTH - 1),
        ("the last bytes", "bytes=-500", LENGTH - 500, LENGTH - 1), ("past its end", f"bytes=299000-{LENGTH * 2}", 299_000, LENGTH - 1),
        ("more than it has from its end", f"bytes=-{LENGTH * 2}", 0, LENGTH - 1), ("one byte", "bytes=0-0", 0, 0),
    ]
    for what, asked, start, end in rows:
        see_part(client, what, client.get(path, Range=asked), body, start, end)
    see_part(client, "If-Range: its tag", client.get(path, Range="bytes=65536-131071", If_Range=tag), body, 65_536, 131_071)
    see_part(client, "If-Range: its date", client.get(path, Range="bytes=65536-131071", If_Range=date), body, 65_536, 131_071)
    see_whole(client, "If-Range: another tag", client.get(path, Range="bytes=2-3", If_Range='"other"'), body)
    see_whole(client, "If-Range: a weak tag", client.get(path, Range="bytes=2-3", If_Range=f"W/{tag}"), body)
    see_whole(client, "If-Range: an earlier date", client.get(path, Range="bytes=2-3", If_Range=http_date(moment(date) - 60)), body)
    past_the_end(client, path, body)


def past_the_end(client, path, body):
    """What can't be given by a range, and what is no range of bytes (RFC 9110, 14.1.2, 14.2 and 15.5.17)."""
    reply = client.get(path, Range=f"bytes={len(body)}-")
    client.site.see("a range past its end: 416, with its length", reply.status == 416 and reply.field("Content-Range") == f"bytes */{len(body)}", reply)
    see_whole(client, "an unknown unit: all of it", client.get(path, Range="lines=1-2"), body)
    for what, asked in (("no byte of its end", "bytes=-0"), ("a range that is none", "bytes=9-3"), ("no numbers", "bytes=a-b")):
        reply = client.get(path, Range=asked)
        client.site.see(f"{what}: 400, 416 or all of it", reply.status in (400, 416) or reply.status == 200 and reply.body == body, reply)
    reply = client.ask("HEAD", path, None, {"Range": "bytes=0-1"})
    client.site.see("HEAD: there are no ranges of it", reply.status == 200 and reply.field("Content-Length") == str(len(body)), reply)
    reply = client.get(path, Range="bytes=0-9,100-109")
    several = reply.status == 206 and reply.kind() == "multipart/byteranges" and body[100:110] in reply.body
    client.site.see("two ranges: both, or all of it", several or reply.status == 200 and reply.body == body, reply)
    client.see("a range of an empty file", client.ask("PUT", "/empty.mp4", b""), 201)
    reply = client.get("/empty.mp4", Range="bytes=0-1")
    client.site.see("a range of an empty file: 416, or all of it", reply.status in (200, 416) and (reply.status == 416 or not reply.body), reply)
    reply = client.ask("PUT", "/film.mp4", body[::-1], {"If-Match": client.ask("HEAD", path).field("ETag")})
    client.see("the film is put anew", reply, *DONE)


def kodi(site):
    """A film in a folder: the folder's list, the head, the film from its begin, and from a place on after a jump."""
    client = Client(site, "Kodi/20.2 (X11; Linux x86_64) Debian/12 App_Bitness/64", Accept="*/*", Icy_MetaData="1")
    body, path = random_bytes(LENGTH), "/films/film.mkv"
    client.see("MKCOL", client.ask("MKCOL", "/films/"), 201)
    client.see("the film", client.ask("PUT", path, body), 201)
    reply = client.propfind("/films/", "1")
    site.see("the list", reply.text(path, f"{DAV}getcontentlength") == str(LENGTH) and moment(reply.text(path, f"{DAV}getlastmodified")), reply)
    head = client.ask("HEAD", path)
    site.see("HEAD: its length", head.status == 200 and head.field("Content-Length") == str(LENGTH), head)
    site.see("HEAD: accept-ranges", head.field("Accept-Ranges") == "bytes", head)
    site.see("GET: accept-ranges", client.get(path).field("Accept-Ranges") == "bytes")
    see_part(client, "from its begin", client.get(path, Range="bytes=0-"), body, 0, LENGTH - 1)
    with socket.create_connection(("127.0.0.1", site.port), timeout=10) as link:
        link.sendall(f"GET {path} HTTP/1.1\r\nHost: 127.0.0.1:{site.port}\r\nRange: bytes=0-\r\n\r\n".encode())
        link.recv(1000)
    see_part(client, "after a jump", client.get(path, Range="bytes=250000-"), body, 250_000, LENGTH - 1)
    vlc = Client(site, "VLC/3.0.18 LibVLC/3.0.18", Accept="*/*", Accept_Language="en_US")
    see_part(vlc, "VLC, after a jump", vlc.get(path, Range="bytes=299999-"), body, LENGTH - 1, LENGTH - 1)


def davx5(site):
    """A folder that is mounted on a phone by DAVx5, over OkHttp and its cache."""
    client = Client(site, "DAVx5/4.3.9-ose (2023/11/05; dav4jvm; okhttp/4.12.0) Android/13")
    body, path = random_bytes(LENGTH), "/photo.jpg"
    none = {"If-None-Match": "*", "Content-Type": "image/jpeg"}
    client.see("a file that is new", client.ask("PUT", path, body, none), 201)
    client.see("a file that is new no more", client.ask("PUT", path, b"other", none), 412)
    names = [DAV + name for name in ("displayname", "resourcetype", "getcontenttype", "getetag", "getlastmodified", "getcontentlength",
                                     "current-user-privilege-set")] + QUOTA
    reply = client.propfind("/", "1", *names)
    all_told(client, "PROPFIND: each name is told, or 404", reply, path, names)
    site.see("the list: its type", reply.text(path, names[2]).partition(";")[0] == "image/jpeg", reply)
    grow_old()
    head, reply = client.ask("HEAD", path), client.propfind(path, "0", f"{DAV}getetag")
    tag, date = head.field("ETag"), head.field("Last-Modified")
    site.see("HEAD: the tag of the list", tag and tag == reply.text(path, f"{DAV}getetag"), f"{head} {reply}")
    site.see("HEAD: accept-ranges", head.field("Accept-Ranges") == "bytes", head)
    see_part(client, "a page of it, If-Match", client.get(path, Range="bytes=0-131071", If_Match=tag), body, 0, 131_071)
    part = client.get(path, Range="bytes=131072-262143", If_Unmodified_Since=date)
    see_part(client, "a page of it, If-Unmodified-Since", part, body, 131_072, 262_143)
    client.see("a page, If-Match of another tag", client.get(path, Range="bytes=0-9", If_Match='"other"'), 412)
    earlier = http_date(moment(date) - 60)
    client.see("a page, If-Unmodified-Since an earlier date", client.get(path, Range="bytes=0-9", If_Unmodified_Since=earlier), 412)
    okhttp_cache(client, path, body, tag, date)


def okhttp_cache(client, path, body, tag, date):
    """A cache asks whether what it has is still right (RFC 9110, 13.1 to 13.2.2)."""
    earlier = http_date(moment(date) - 60)
    rows = [
        ("its tag", {"If_None_Match": tag}), ("its tag, weak", {"If_None_Match": f"W/{tag}"}),
        ("its tag, of three", {"If_None_Match": f'"a", W/{tag}, "b"'}), ("any tag", {"If_None_Match": "*"}),
        ("its date", {"If_Modified_Since": date}), ("a later date", {"If_Modified_Since": http_date(moment(date) + 1)}),
        ("its tag, and an earlier date", {"If_None_Match": tag, "If_Modified_Since": earlier}),
    ]
    for what, fields in rows:
        reply = client.get(path, **fields)
        client.site.see(f"304: {what}", reply.status == 304 and not reply.body, reply)
        reply = client.ask("HEAD", path, None, {name.replace("_", "-"): value for name, value in fields.items()})
        client.site.see(f"304 of HEAD: {what}", reply.status == 304, reply)
    reply = client.get(path, If_None_Match=tag)
    client.site.see("304: it has tag and date (RFC 9110, 15.4.5)", reply.status == 304 and reply.field("ETag") == tag and reply.field("Date"), reply)
    reply = client.get(path, Range="bytes=0-1", If_None_Match=tag)
    client.see("304: its tag, with a range", reply, 304)
    see_whole(client, "200: another tag", client.get(path, If_None_Match='"other"'), body)
    see_whole(client, "200: an earlier date", client.get(path, If_Modified_Since=earlier), body)
    see_whole(client, "200: another tag, and its date", client.get(path, If_None_Match='"other"', If_Modified_Since=date), body)
    see_whole(client, "200: a date that is none", client.get(path, If_Modified_Since="yesterday"), body)


def browser(site):
    """What a browser shows of files, by their types, and how it goes on with what it was loading."""
    client = Client(site, "Mozilla/5.0 (X11; Linux x86_64; rv:120.0) Gecko/20100101 Firefox/120.0", Accept_Encoding="gzip, deflate")
    for ending, types in TYPES.items():
        path = f"/shown.{ending}"
        client.see("a file", client.ask("PUT", path, b"<p>content</p>"), 201)
        got, head = client.get(path), client.ask("HEAD", path)
        site.see(f"the type of .{ending}", got.kind() in types and head.kind() == got.kind(), got)
        listed = client.propfind(path, "0", f"{DAV}getcontenttype").text(path, f"{DAV}getcontenttype")
        site.see(f"the type of .{ending} in a list", listed.partition(";")[0].strip() in types, listed)
    for ending in ("html", "htm", "xhtml", "svg", "xml", "xsl"):
        client.see("a file", client.ask("PUT", f"/acts.{ending}", b"<p>content</p>"), 201)
        got = client.get(f"/acts.{ending}")
        told = "sandbox" in got.field("Content-Security-Policy").replace(";", " ").split() and got.field("X-Content-Type-Options") == "nosniff"
        site.see(f"a .{ending} that someone stored can't act for its reader", got.kind() not in ACTING or told, got, alone=True)
    grow_old()
    body = random_bytes(LENGTH)
    client.see("a file", client.ask("PUT", "/shown.zip", body), *DONE)
    grow_old()
    tag = client.ask("HEAD", "/shown.zip").field("ETag")
    see_part(client, "a download goes on", client.get("/shown.zip", Range="bytes=123456-", If_Range=tag), body, 123_456, LENGTH - 1)


SESSIONS = {"iOS": ios, "Kodi and VLC": kodi, "DAVx5": davx5, "a browser": browser}
