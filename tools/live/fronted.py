"""nginx before several servers, by the table, the file and the commands of docs/MACHINES.md."""
import contextlib
import os
import re
import subprocess
import time

from serving import TOP, ask, free_port, run


def page():
    with open(f"{TOP}/docs/MACHINES.md", encoding="utf-8") as it:
        return it.read()


def parts():
    """The table and the file of nginx of the page."""
    text = page()
    return re.search(r"(?:^    \"~.*;\n)+", text, re.M)[0], re.search(r"^    upstream .*^    }\n", text, re.M | re.S)[0]


def commands():
    """The commands of the page that move a folder, each a line."""
    return re.search(r"(?:^    renew.*\n)(?:^    .*\n)+", page(), re.M)[0].replace("\n    ", "\n").strip().split("\n")


class Proxy:
    """nginx before servers, by their names in its file. `more` are lines of the table besides those of the page."""

    def __init__(self, room, servers, more=""):
        table, conf = parts()
        self.room, self.port = room, free_port()
        conf = conf.replace("/etc/nginx/", f"{room}/").replace("listen 80;", f"listen 127.0.0.1:{self.port};")
        for name, server in servers.items():
            conf = re.sub(rf"upstream {name} {{ server \S+;", f"upstream {name} {{ server {server.address};", conf)
        folders = "".join(f"{name}_temp_path {room}/{name};\n" for name in ("client_body", "proxy", "fastcgi", "uwsgi", "scgi"))
        self.write("shards", re.sub("^ +", "", table, flags=re.M) + more)
        self.write("moving", "")
        self.write("nginx.conf", f"daemon off; worker_processes 2; pid {room}/pid; error_log {room}/errors; events {{}}\nhttp {{ access_log off;\n{folders}{conf}}}\n")
        os.chmod(room, 0o755)
        self.process = subprocess.Popen(["nginx", "-c", f"{room}/nginx.conf"])
        for _ in range(200):
            with contextlib.suppress(OSError):
                ask(self.port, "OPTIONS", "/")
                return
            time.sleep(0.05)
        with open(f"{room}/errors", encoding="utf-8") as it:
            raise SystemExit("nginx doesn't answer: " + it.read())

    def write(self, name, text):
        with open(f"{self.room}/{name}", "w", encoding="utf-8") as it:
            it.write(text)

    def renew(self):
        """Has nginx go by its files, as the page says: the status, and what was said."""
        text = commands()[0].replace("/run/nginx.pid", f"{self.room}/pid")
        return run(["bash", "-c", f'nginx() {{ command nginx -q -c {self.room}/nginx.conf "$@"; }}\n{text}\nrenew'])

    def end(self):
        self.process.terminate()
        self.process.wait()
