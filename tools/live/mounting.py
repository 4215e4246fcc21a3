"""Sessions of clients that mount a server: Windows' redirector, macOS Finder, LibreOffice. Each is written as the requests that it sends."""
import time
import xml.etree.ElementTree as ET

from asking import DAV, DONE, WIN32, Client, grow_old, http_date, is_rfc3339, moment, random_bytes

UCB = "http://ucb.openoffice.org/dav/props/"
QUOTA = [f"{DAV}quota-available-bytes", f"{DAV}quota-used-bytes"]
TIMES = ["Win32CreationTime", "Win32LastAccessTime", "Win32LastModifiedTime"]


def win32_patch(**values):
    told = "".join(f"<Z:{name}>{value}</Z:{name}>" for name, value in values.items())
    return ('<?xml version="1.0" encoding="utf-8" ?><D:propertyupdate xmlns:D="DAV:" xmlns:Z="urn:schemas-microsoft-com:">'
            f"<D:set><D:prop>{told}</D:prop></D:set></D:propertyupdate>")


def is_dav_2(reply):
    return {"1", "2"} <= {word.strip() for word in reply.field("DAV").split(",")}


def all_told(client, what, reply, path, names):
    """Each property that was asked by name is told, or said not to be there (RFC 4918, 9.1)."""
    told = reply.told(path) if reply.status == 207 else {}
    missing = [name for name in names if told.get(name, (0,))[0] not in (200, 404)]
    client.site.see(what, reply.status == 207 and not missing, f"missing: {missing} {reply}")


def windows(site):
    """A file that Explorer copies into a folder."""
    client = Client(site, "Microsoft-WebDAV-MiniRedir/10.0.19045", translate="f")
    site.see("OPTIONS: DAV 1, 2", is_dav_2(client.ask("OPTIONS", "/")))
    client.see("MKCOL", client.ask("MKCOL", "/Neuer Ordner"), 201)
    folder = client.propfind("/Neuer Ordner", "0")
    told = folder.told("/Neuer Ordner")
    site.see("PROPFIND of a folder", folder.status == 207 and told[f"{DAV}resourcetype"][1].find(f"{DAV}collection") is not None, folder)
    path = "/Neuer Ordner/Übersicht.docx"
    client.see("PROPFIND before it is there", client.propfind(path, "0"), 404)
    client.see("PUT of nothing", client.ask("PUT", path, b""), 201)
    reply, token = client.lock(path, "Second-3600")
    site.see("LOCK", reply.status == 200 and token.startswith("<") and token[1:-1].encode() in reply.body, reply)
    body, held = random_bytes(70_000), {"If": f"({token})"}
    client.see("HEAD", client.ask("HEAD", path), 200)
    client.see("PUT under the lock", client.ask("PUT", path, body, held), *DONE)
    windows_times(client, path, held)
    client.see("PUT of another, without the token", client.ask("PUT", path, b"other"), 423)
    client.see("UNLOCK", client.ask("UNLOCK", path, None, {"Lock-Token": token}), 204)
    listing = client.propfind("/Neuer Ordner", "1")
    site.see("the listing: its length", listing.text(path, f"{DAV}getcontentlength") == "70000", listing)
    site.see("the listing: its dates", moment(listing.text(path, f"{DAV}getlastmodified"))
             and is_rfc3339(listing.text(path, f"{DAV}creationdate")), listing)
    site.see("GET", client.get(path).body == body)
    windows_moves(client, path)


def windows_times(client, path, held):
    """The times of the file that was copied, which it sets after the file."""
    then = http_date(time.time() - 86400 * 400)
    patch = win32_patch(**{name: then for name in TIMES}, Win32FileAttributes="00000020")
    reply = client.ask("PROPPATCH", path, patch, {**held, "Content-Type": "text/xml"})
    names = [WIN32 + name for name in [*TIMES, "Win32FileAttributes"]]
    told = reply.told(path) if reply.status == 207 else {}
    client.site.see("PROPPATCH of times and attributes", all(told.get(name, (0,))[0] == 200 for name in names), reply)
    reply = client.propfind(path, "0", *names)
    client.site.see("the times come back", reply.text(path, names[2]) == then and reply.text(path, names[3]) == "00000020", reply)
    reply = client.propfind(path, "0", f"{DAV}getlastmodified")
    client.site.see("getlastmodified is the time that was set", reply.text(path, f"{DAV}getlastmodified") == then, reply)


def windows_moves(client, path):
    other = "/Neuer Ordner/b.docx"
    target = {"Destination": f"{client.site.url}/Neuer%20Ordner/b.docx", "Overwrite": "F"}
    client.see("MOVE", client.ask("MOVE", path, None, target), 201)
    client.see("DELETE", client.ask("DELETE", other), 204)
    client.see("DELETE of the folder", client.ask("DELETE", "/Neuer Ordner"), 204)


def finder(site):
    """A file that Finder copies to a volume, with its ._ file, and what it asks of the volume."""
    client = Client(site, "WebDAVFS/3.0.0 (03008000) Darwin/22.6.0 (arm64)", Accept="*/*")
    site.see("OPTIONS: DAV 1, 2", is_dav_2(client.ask("OPTIONS", "/")))
    names = [*QUOTA, f"{DAV}quota", f"{DAV}quotaused"]
    reply = client.propfind("/", "0", *names)
    all_told(client, "PROPFIND of the room: each name is told, or 404", reply, "/", names)
    site.see("the room of the volume (RFC 4331)", all(reply.text("/", name).isdigit() for name in QUOTA), reply)
    for path, body in (("/note.txt", random_bytes(40_000)), ("/._note.txt", b"\x00\x05\x16\x07\x00\x02\x00\x00" + bytes(4088))):
        finder_file(client, path, body)
    names = [DAV + name for name in ("getlastmodified", "getcontentlength", "creationdate", "resourcetype")]
    reply = client.propfind("/", "1", *names)
    site.see("the listing", reply.text("/note.txt", names[1]) == "40000" and reply.text("/._note.txt", names[1]) == "4096", reply)
    all_told(client, "the listing: each name is told, or 404", reply, "/", names)
    finder_cache(client)
    target = {"Destination": f"{site.url}/moved.txt", "Overwrite": "F"}
    client.see("MOVE", client.ask("MOVE", "/note.txt", None, target), 201)
    client.see("DELETE of the ._ file", client.ask("DELETE", "/._note.txt"), 204)


def finder_file(client, path, body):
    client.see(f"{path}: PROPFIND before it is there", client.propfind(path, "0"), 404)
    client.see(f"{path}: PUT of nothing", client.ask("PUT", path, b""), 201)
    reply, token = client.lock(path)
    client.see(f"{path}: LOCK", reply, 200)
    fields = {"If": f"({token})", "X-Expected-Entity-Length": str(len(body)), "Content-Type": "application/octet-stream"}
    waited, reply = client.put_awaited(path, [body[at:at + 4096] for at in range(0, len(body), 4096)], fields)
    client.site.see(f"{path}: PUT in chunks after 100 Continue", waited and reply.status in DONE, reply)
    reply = client.ask("LOCK", path, None, {"If": f"({token})", "Timeout": "Second-600"})
    client.see(f"{path}: the lock is held on", reply, 200)
    client.see(f"{path}: UNLOCK", client.ask("UNLOCK", path, None, {"Lock-Token": token}), 204)
    client.site.see(f"{path}: GET", client.get(path).body == body)


def finder_cache(client):
    """What Finder has of a file is asked for again only where it changed, and a part that is missing by its range."""
    grow_old()
    whole = client.get("/note.txt")
    date, tag = whole.field("Last-Modified"), whole.field("ETag")
    client.see("GET, if it changed since its date", client.get("/note.txt", If_Modified_Since=date), 304)
    client.see("GET, if it has another tag", client.get("/note.txt", If_None_Match=tag), 304)
    part = client.get("/note.txt", Range="bytes=30000-", If_Range=tag)
    client.site.see("GET of the rest", part.status == 206 and part.body == whole.body[30000:], part)


def office_find(client, path, *names):
    """A PROPFIND as LibreOffice writes it: each name declares the default namespace of its own."""
    told = "".join(f'<{name} xmlns="{"DAV:" if name.islower() else UCB}"/>' for name in names)
    body = f'<?xml version="1.0" encoding="UTF-8"?>\n<propfind xmlns="DAV:"><prop>{told}</prop></propfind>'
    return client.ask("PROPFIND", path, body, {"Depth": "0", "Content-Type": "application/xml"})


def libreoffice(site):
    """A document that is opened, changed and stored; before it is stored, its folder is looked at."""
    client, path = Client(site, "LibreOffice 7.4.7.2 denylistedbackend/7.88.1 GnuTLS/3.7.9", Accept="*/*"), "/letter.odt"
    client.see("the document", client.ask("PUT", path, b"first"), 201)
    for where in (path, "/"):
        reply = office_find(client, where, "resourcetype", "IsReadOnly", "getcontenttype", "supportedlock")
        names = [f"{DAV}resourcetype", f"{{{UCB}}}IsReadOnly", f"{DAV}getcontenttype", f"{DAV}supportedlock"]
        all_told(client, f"PROPFIND of {where}: each name is told, or 404", reply, where, names)
        site.see(f"PROPFIND of {where}: resourcetype has a prefix, else it isn't read",
                 reply.status == 207 and b":resourcetype" in reply.body and b"<resourcetype" not in reply.body, reply.body)
    for where, name in ((path, "IsReadOnly"), (path, "BaseURI"), (path, "ObjectId"), ("/", "CreatableContentsInfo")):
        all_told(client, "PROPFIND of a name alone that isn't there", office_find(client, where, name), where, [f"{{{UCB}}}{name}"])
    reply = client.ask("PROPFIND", path, b'<propfind xmlns="DAV:"><propname/></propfind>', {"Depth": "0", "Content-Type": "application/xml"})
    site.see("PROPFIND of names", f"{DAV}supportedlock" in reply.told(path), reply)
    reply, token = client.lock(path, "Second-180")
    client.see("LOCK", reply, 200)
    reply = office_find(client, path, "getlastmodified")
    site.see("its date", moment(reply.text(path, f"{DAV}getlastmodified")), reply)
    client.see("HEAD of its folder", client.ask("HEAD", "/"), 200)
    client.see("PUT under the lock", client.ask("PUT", path, b"second", {"If": f"({token})"}), *DONE)
    client.see("UNLOCK", client.ask("UNLOCK", path, None, {"Lock-Token": token}), 204)
    site.see("what was stored", client.get(path).body == b"second")
    site.see("its type", client.get(path).kind() == "application/vnd.oasis.opendocument.text", client.ask("HEAD", path))


def minimal(site):
    """A calendar program that asks for little: what isn't there isn't told, and a response is no href alone (RFC 8144, 2.1)."""
    client = Client(site, "macOS/13.5 (22G74) dataaccessd/1.0", Prefer="return=minimal", Brief="t")
    client.see("a file", client.ask("PUT", "/event.ics", b"BEGIN:VCALENDAR"), 201)
    there, not_there = f"{DAV}getetag", "{urn:ietf:params:xml:ns:caldav}calendar-data"
    reply = client.propfind("/event.ics", "0", there, not_there)
    told = reply.told("/event.ics")
    site.see("what is there alone is told", told.get(there, (0,))[0] == 200 and not_there not in told, reply)
    reply = client.propfind("/event.ics", "0", not_there)
    propstat = ET.fromstring(reply.body).find(f"{DAV}response/{DAV}propstat")
    site.see("of nothing that is there an empty propstat is told", propstat is not None and not list(propstat.find(f"{DAV}prop"))
             and propstat.findtext(f"{DAV}status").split()[1] == "200", reply)


SESSIONS = {"Windows": windows, "Finder": finder, "LibreOffice (as it asks)": libreoffice, "a calendar program": minimal}
