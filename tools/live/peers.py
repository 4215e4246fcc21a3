"""Other servers beside ./serve, and what a session of a client shows of each: for the trials of clients, and for bench."""
import concurrent.futures
import contextlib
import grp
import os
import pwd
import shutil
import socket
import subprocess
import sys
import tempfile
import time

from serving import Server, Verdict, free_port

MODULES = "/usr/lib/apache2/modules"
APACHE = """
ServerRoot {folder}
ServerName localhost
Listen 127.0.0.1:{port}
PidFile {folder}/pid
ErrorLog {folder}/errors
User {user}
Group {group}
LoadModule mpm_event_module {modules}/mod_mpm_event.so
LoadModule authz_core_module {modules}/mod_authz_core.so
LoadModule dav_module {modules}/mod_dav.so
LoadModule dav_fs_module {modules}/mod_dav_fs.so
KeepAlive On
MaxKeepAliveRequests 0
MaxSpareThreads 400
LimitRequestBody 0
DocumentRoot {folder}/files
DavLockDB {folder}/locks/db
<Directory {folder}/files>
    Dav On
    Require all granted
</Directory>
"""
# Types by extension, and pages of folders, which LibreOffice asks for before it stores.
APACHE_FILES = f"""
LoadModule mime_module {MODULES}/mod_mime.so
LoadModule autoindex_module {MODULES}/mod_autoindex.so
TypesConfig /etc/mime.types
<Location />
    Options +Indexes
</Location>
"""
LIGHTTPD = """
server.document-root = "{folder}/files"
server.bind = "127.0.0.1"
server.port = {port}
server.upload-dirs = ( "{folder}/locks" )
server.errorlog = "{folder}/errors"
server.max-keep-alive-requests = 65535
server.modules = ( "mod_webdav", "mod_dirlisting" )
dir-listing.activate = "enable"
include_shell "/usr/share/lighttpd/create-mime.conf.pl"
webdav.activate = "enable"
webdav.sqlite-db-name = "{folder}/locks/db"
"""
NGINX_LISTS = "/usr/lib/nginx/modules/ngx_http_dav_ext_module.so"  # its PROPFIND, of Debian's libnginx-mod-http-dav-ext
NGINX = """
{load}
daemon off;
pid {folder}/pid;
error_log {folder}/errors;
user {user};
worker_processes auto;
events {{ worker_connections 4096; }}
http {{
    access_log off;
    keepalive_requests 1000000000;
    client_max_body_size 0;
    client_body_temp_path {folder}/locks;
    dav_methods PUT DELETE MKCOL COPY MOVE;
    {lists}
    server {{ listen 127.0.0.1:{port}; root {folder}/files; }}
}}
"""


class Program:
    """A player that is one program, which listens on a port; it ends with the run."""

    def __init__(self, port, words, **more):
        self.port = port
        self.process = subprocess.Popen(words, stdin=subprocess.DEVNULL, **more)

    def pid(self):
        return self.process.pid

    def end(self):
        self.process.terminate()
        self.process.wait()


def wait_for(port):
    for _ in range(200):
        with contextlib.suppress(OSError), socket.create_connection(("127.0.0.1", port), 1):
            return
        time.sleep(0.05)
    sys.exit(f"nobody listens on port {port}")


def configured(folder, text, user, **more):
    """Makes the folders of a server below another, and writes its configuration; gives its port."""
    os.chmod(folder, 0o755)
    for name in ("files", "locks"):
        os.mkdir(f"{folder}/{name}")
        if os.getuid() == 0:
            shutil.chown(f"{folder}/{name}", user)
    port = free_port()
    with open(f"{folder}/conf", "w", encoding="ascii") as out:
        out.write(text.format(folder=folder, port=port, user=user, **more))
    return port


def apache(folder, more=""):
    """Apache with its files below a folder, or why there is none."""
    if not os.path.exists("/usr/sbin/apache2") or not os.path.exists(f"{MODULES}/mod_dav_fs.so"):
        return "apache: no /usr/sbin/apache2 with mod_dav_fs"
    user = pwd.getpwnam("www-data") if os.getuid() == 0 else pwd.getpwuid(os.getuid())
    group = grp.getgrgid(user.pw_gid).gr_name
    port = configured(folder, APACHE + more, user.pw_name, group=group, modules=MODULES)
    return Program(port, ["/usr/sbin/apache2", "-f", f"{folder}/conf", "-D", "FOREGROUND"])


def lighttpd(folder):
    if not os.path.exists("/usr/sbin/lighttpd") or not os.path.exists("/usr/lib/lighttpd/mod_webdav.so"):
        return "lighttpd: no /usr/sbin/lighttpd with mod_webdav"
    port = configured(folder, LIGHTTPD, pwd.getpwuid(os.getuid()).pw_name)
    return Program(port, ["/usr/sbin/lighttpd", "-D", "-f", f"{folder}/conf"])


def nginx(folder):
    """nginx with its module dav, and with PROPFIND where that can be had, or why there is none."""
    if not os.path.exists("/usr/sbin/nginx"):
        return "nginx: no /usr/sbin/nginx"
    load, lists = (f"load_module {NGINX_LISTS};", "dav_ext_methods PROPFIND;") if os.path.exists(NGINX_LISTS) else ("", "")
    port = configured(folder, NGINX, pwd.getpwuid(os.getuid()).pw_name, load=load, lists=lists)
    return Program(port, ["/usr/sbin/nginx", "-p", folder, "-c", f"{folder}/conf"])


def rclone(folder):
    if not shutil.which("rclone"):
        return "rclone: it isn't here"
    port = free_port()
    os.mkdir(f"{folder}/files")
    words = ["rclone", "--config", "/dev/null", "--cache-dir", f"{folder}/cache", "serve", "webdav", f"{folder}/files"]
    words += ["--addr", f"127.0.0.1:{port}", "--vfs-cache-mode", "full", "--dir-cache-time", "0s", "--etag-hash", "md5"]
    return Program(port, words, stderr=subprocess.DEVNULL)


class Site:
    """A server that sessions are played to: its name, its port and a folder for what the clients keep."""

    def __init__(self, name, port, room):
        self.name, self.port, self.room = name, port, room
        self.url = f"http://127.0.0.1:{port}"
        self.seen, self.session = {}, ""
        os.mkdir(room)

    def see(self, what, holds, more="", alone=False):
        """Notes what a session showed; of two looks with one name the first that failed counts. `alone`: it counts whatever the others show."""
        key = (self.session, what)
        if self.seen.get(key, (True,))[0]:
            self.seen[key] = (bool(holds), str(more), alone)
        return holds


@contextlib.contextmanager
def sites(*options):
    """./serve, which is first, and those of the other servers that are here."""
    with contextlib.ExitStack() as stack:
        room = stack.enter_context(tempfile.TemporaryDirectory(prefix="sites-"))
        os.chmod(room, 0o755)
        ours = stack.enter_context(Server(None, *options))
        made = [Site("ours", ours.port, f"{room}/ours")]
        for name, make in (("apache", lambda at: apache(at, APACHE_FILES)), ("rclone", rclone), ("lighttpd", lighttpd)):
            os.mkdir(f"{room}/of-{name}")
            peer = make(f"{room}/of-{name}")
            if isinstance(peer, str):
                print(f"not tried: {peer}", flush=True)
                continue
            stack.callback(peer.end)
            wait_for(peer.port)
            made.append(Site(name, peer.port, f"{room}/{name}"))
        yield ours, made


class Compared(Verdict):
    """Plays sessions to each server. What fails with every other one too isn't counted as ours: it may be the session that is wrong."""

    def __init__(self, name, made, tells=False):
        super().__init__(name)
        self.sites, self.uncounted, self.tells = made, 0, tells

    def play(self, name, session):
        """Plays a session to all servers at once, and counts what it showed."""
        with concurrent.futures.ThreadPoolExecutor() as threads:
            list(threads.map(lambda site: self.play_to(site, name, session), self.sites))
        for key in dict.fromkeys(key for site in self.sites for key in site.seen if key[0] == name):
            self.count(key)

    @staticmethod
    def play_to(site, name, session):
        site.session = name
        try:
            session(site)
        except (OSError, ValueError, LookupError, AttributeError, SyntaxError, subprocess.SubprocessError) as error:
            site.see("it goes on to its end", False, f"{type(error).__name__}: {error}")
        else:
            site.see("it goes on to its end", True)

    def count(self, key):
        what, shown = f"{key[0]}: {key[1]}", [site.seen.get(key) for site in self.sites]
        ours, peers = shown[0] or (False, "the session didn't come to it", False), [one for one in shown[1:] if one]
        words = [f"{site.name} {'-' if one is None else 'yes' if one[0] else 'no'}" for site, one in zip(self.sites, shown)]
        print(f"{what}: {', '.join(words)}", flush=True)
        if self.tells:
            for site, one in list(zip(self.sites, shown))[1:]:
                if one and not one[0]:
                    print(f"  {site.name}: {one[1][:500]}", flush=True)
        if peers and not ours[0] and not ours[2] and not any(one[0] for one in peers):
            self.uncounted += 1
            print(f"not counted: {what}: no other server has it either: {ours[1][:500]}", flush=True)
        else:
            self.see(what, ours[0], ours[1][:700])

    def close(self, more=""):
        super().close(f"({self.uncounted} not counted) {more}".rstrip())
