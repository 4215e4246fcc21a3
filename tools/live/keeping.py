"""Sessions of programs that keep their own files on a server, and of several devices: KeePass, OmniFocus, Joplin, Zotero."""
import time

from asking import DAV, DONE, Client, grow_old, http_date, moment, random_bytes


def keepass(site):
    """A database that two devices write: none may overwrite what it hasn't seen (RFC 9110, 13.1.1 and 13.1.4)."""
    client, other = Client(site, "KeePass/2.54"), Client(site, "Strongbox/1.58")
    path = "/secrets.kdbx"
    client.see("the database", client.ask("PUT", path, b"one"), 201)
    grow_old()
    seen = client.get(path)
    date, tag = seen.field("Last-Modified"), seen.field("ETag")
    other.see("the other device stores", other.ask("PUT", path, b"of another"), *DONE)
    grow_old()
    lost = client.ask("PUT", path, b"two", {"If-Unmodified-Since": date})
    keeps(client, "PUT since its date: 412, and the other's stays", lost, path, b"of another")
    keeps(client, "PUT of its tag: 412, and the other's stays", client.ask("PUT", path, b"two", {"If-Match": tag}), path, b"of another")
    gone = client.ask("DELETE", path, None, {"If-Unmodified-Since": date})
    keeps(client, "DELETE since its date: 412, and the other's stays", gone, path, b"of another")
    keeps(client, "DELETE of its tag: 412, and the other's stays", client.ask("DELETE", path, None, {"If-Match": tag}), path, b"of another")
    seen = client.get(path)
    date, tag = seen.field("Last-Modified"), seen.field("ETag")
    client.see("PUT since the date that it saw", client.ask("PUT", path, b"three", {"If-Unmodified-Since": date}), *DONE)
    keepass_tags(client, path)


def keeps(client, what, reply, path, body):
    """A request that was refused, and left a file as it was; it is put back for what follows."""
    now = client.get(path)
    client.site.see(what, reply.status == 412 and now.body == body, f"{reply}, then {now}")
    if now.body != body:
        client.ask("PUT", path, body)
        grow_old()


def keepass_tags(client, path):
    """Which of two conditions counts (RFC 9110, 13.2.2), and dates that say nothing."""
    grow_old()
    seen = client.get(path)
    date, tag = seen.field("Last-Modified"), seen.field("ETag")
    earlier, later = http_date(moment(date) - 60), http_date(time.time())
    both = {"If-Match": tag, "If-Unmodified-Since": earlier}
    client.see("PUT of its tag, and since an earlier date", client.ask("PUT", path, b"four", both), *DONE)
    grow_old()
    client.see("PUT since a date that is none", client.ask("PUT", path, b"five", {"If-Unmodified-Since": "yesterday"}), *DONE)
    grow_old()
    client.see("GET since a later date", client.get(path, If_Unmodified_Since=http_date(time.time())), 200)
    client.see("GET since an earlier date", client.get(path, If_Unmodified_Since=earlier), 412)
    client.see("PUT of what isn't there, since a date", client.ask("PUT", "/new.kdbx", b"six", {"If-Unmodified-Since": later}), 201)
    grow_old()
    reply = client.ask("PUT", f"{path}.tmp", b"seven")
    client.see("the new database beside it", reply, 201)
    target = {"Destination": f"{client.site.url}{path}", "Overwrite": "T"}
    client.see("MOVE over the old one", client.ask("MOVE", f"{path}.tmp", None, target), *DONE)
    client.site.see("the new one is there", client.get(path).body == b"seven")
    seen = client.get(path)
    client.see("DELETE since the date that it saw", client.ask("DELETE", path, None, {"If-Unmodified-Since": seen.field("Last-Modified")}), 204)


def omnifocus(site):
    """A database of packages: it reckons by the Date of each reply, and halts where there is none."""
    client = Client(site, "OmniFocus/4.2 Darwin/22.6.0")
    path, place = "/OmniFocus.ofocus/00000000000000=a.zip", f"{site.url}/OmniFocus.ofocus/"
    folder = {"Destination": f"{place}b.zip", "Overwrite": "F"}
    rows = [
        ("PROPFIND before it is there", "PROPFIND", "/OmniFocus.ofocus/", None, {"Depth": "1"}, (404,)),
        ("MKCOL", "MKCOL", "/OmniFocus.ofocus/", None, {}, (201,)),
        ("PUT beside it", "PUT", f"{path}-write-in-progress", b"package", {}, (201,)),
        ("MOVE to its name", "MOVE", f"{path}-write-in-progress", None, {"Destination": f"{place}00000000000000=a.zip", "Overwrite": "T"}, (201,)),
        ("PROPFIND", "PROPFIND", "/OmniFocus.ofocus/", None, {"Depth": "1"}, (207,)),
        ("GET", "GET", path, None, {}, (200,)),
        ("HEAD", "HEAD", path, None, {}, (200,)),
        ("GET of what isn't there", "GET", "/OmniFocus.ofocus/none", None, {}, (404,)),
        ("DELETE of another tag", "DELETE", path, None, {"If-Match": '"other"'}, (412,)),
        ("COPY", "COPY", path, None, folder, (201,)),
        ("COPY over what is there", "COPY", path, None, folder, (412,)),
        ("DELETE", "DELETE", path, None, {}, (204,)),
        ("OPTIONS", "OPTIONS", "/OmniFocus.ofocus/", None, {}, (200, 204)),
    ]
    for what, method, target, body, fields, statuses in rows:
        reply = client.ask(method, target, body, fields)
        client.see(what, reply, *statuses)
        date = moment(reply.field("Date"))
        site.see(f"{what}: its Date is now", date and abs(date - time.time()) < 5, reply)


def joplin(site):
    """Notes that are synchronized: what changed is seen by getlastmodified."""
    client = Client(site, "Joplin/1.0")
    names = [f"{DAV}getlastmodified", f"{DAV}resourcetype"]
    client.see("the root", client.propfind("/", "1", *names), 207)
    client.see("MKCOL", client.ask("MKCOL", "/.sync"), 201)
    client.see("MKCOL once more", client.ask("MKCOL", "/.sync"), 405)
    client.see("GET before it is there", client.get("/info.json"), 404)
    text = "Notiz für später\n\nid: 0123".encode()
    client.see("PUT", client.ask("PUT", "/0123.md", text, {"Content-Type": "text/plain"}), 201)
    reply = client.propfind("/0123.md", "0", *names)
    date = moment(reply.text("/0123.md", names[0]))
    site.see("its date", date and abs(date - time.time()) < 5, reply)
    grow_old()
    client.see("PUT once more", client.ask("PUT", "/0123.md", text * 2, {"Content-Type": "text/plain"}), *DONE)
    again = moment(client.propfind("/0123.md", "0", *names).text("/0123.md", names[0]))
    site.see("its date is later", date and again and again > date, f"{date} {again}")
    reply = client.propfind("/", "1", *names)
    site.see("the list", {"/.sync", "/0123.md"} <= {href.rpartition(str(site.port))[2].rstrip("/") for href in reply.hrefs()}, reply)
    site.see("GET", client.get("/0123.md").body == text * 2)
    client.see("DELETE", client.ask("DELETE", "/0123.md"), 204)
    client.see("DELETE once more", client.ask("DELETE", "/0123.md"), 404)


def zotero(site):
    """The look at a server, and a file of a library with its properties."""
    client = Client(site, "Zotero/6.0.30", Accept="*/*")
    asked = [f"{DAV}getlastmodified"]
    client.see("OPTIONS", client.ask("OPTIONS", "/"), 200, 204)
    client.see("PROPFIND of what holds it", client.propfind("/", "0", *asked), 207)
    client.see("PROPFIND before it is there", client.propfind("/zotero/", "0", *asked), 404)
    client.see("MKCOL", client.ask("MKCOL", "/zotero/"), 201)
    client.see("PROPFIND", client.propfind("/zotero/", "0", *asked), 207)
    client.see("GET of what can't be there", client.get("/zotero/nonexistent.prop"), 404)
    client.see("PUT of a test", client.ask("PUT", "/zotero/zotero-test-file.prop", b" "), 201)
    client.see("GET of a test", client.get("/zotero/zotero-test-file.prop"), 200)
    client.see("DELETE of a test", client.ask("DELETE", "/zotero/zotero-test-file.prop"), 200, 204)
    body = random_bytes(100_000)
    told = b'<properties version="1"><mtime>1700000000000</mtime><hash>0123</hash></properties>'
    client.see("PUT of a file", client.ask("PUT", "/zotero/ABCD2345.zip", body, {"Content-Type": "application/zip"}), 201)
    client.see("PUT of its properties", client.ask("PUT", "/zotero/ABCD2345.prop", told, {"Content-Type": "text/xml"}), 201)
    site.see("GET of its properties", client.get("/zotero/ABCD2345.prop").body == told)
    site.see("GET of the file", client.get("/zotero/ABCD2345.zip").body == body)
    reply = client.propfind("/zotero/", "1", *asked)
    site.see("the list", moment(reply.text("/zotero/ABCD2345.zip", asked[0])), reply)


SESSIONS = {"KeePass": keepass, "OmniFocus": omnifocus, "Joplin": joplin, "Zotero": zotero}
