"""Starts ./serve on a free port for the trials of this folder, and ends it again."""
import contextlib
import hashlib
import http.client
import os
import shutil
import signal
import socket
import subprocess
import sys
import tempfile
import time

TOP = os.path.dirname(os.path.dirname(os.path.dirname(os.path.realpath(__file__))))
# What a refusal says in words where it has no other body (docs/SERVE.md, "Refusals in words").
REFUSALS = {
    401: b"Who are you? Log in with a name and a password.\n",
    403: b"This isn't allowed here, or not to you.\n",
    413: b"This is larger than this server takes.\n",
    421: b"This server hasn't that name, or not that folder.\n",
    423: b"A lock is in the way, and its token wasn't handed in.\n",
    429: b"Too many wrong logins: wait and try again.\n",
    503: b"This can't be taken now: try again soon.\n",
    507: b"There is no room for this.\n",
}


def free_port():
    with socket.socket() as it:
        it.bind(("127.0.0.1", 0))
        return it.getsockname()[1]


def program():
    """The program that ./serve runs, built where it isn't there."""
    done = subprocess.run([f"{TOP}/tools/build/program", "dav_serve"], stdout=subprocess.PIPE, text=True, check=True)
    return done.stdout.strip()


def is_fast():
    """Whether the program isn't the slow build, which drops large files byte by byte and can't be held to --memory."""
    return not program().endswith("-slow")


def secret_of(password):
    words = ["openssl", "passwd", "-5", password]
    return subprocess.run(words, check=True, capture_output=True, text=True).stdout.strip()


class Server:
    """A server of a folder. `kill` ends it as a power cut of the program would: SIGKILL to the front and the core."""

    def __init__(self, folder=None, *options, users=None, memory=None, top=TOP):
        self.kept = tempfile.TemporaryDirectory(prefix="live-") if folder is None else None
        self.folder = folder or self.kept.name
        self.options, self.top = list(options), top
        self.port = free_port()
        self.address = f"127.0.0.1:{self.port}"
        if users:
            with open(f"{self.folder}/users", "w", encoding="utf-8") as it:
                it.writelines(f"{name}:{secret_of(word)}\n" for name, word in users.items())
        self.process = None
        self.start()

    def start(self):
        words = [f"{self.top}/serve", self.folder, "--port", str(self.port), *self.options]
        self.said = open(f"{self.folder}/said", "ab")
        self.process = subprocess.Popen(words, stderr=self.said, stdin=subprocess.DEVNULL)
        began = time.time()
        while time.time() < began + 600:
            if self.process.poll() is not None:
                raise SystemExit(f"the server ended with status {self.process.returncode}: " + self.errors())
            try:
                status, _, _ = ask(self.port, "OPTIONS", "/")
                if status:
                    self.seconds = time.time() - began
                    return
            except OSError:
                time.sleep(0.05)
        raise SystemExit("the server doesn't answer")

    def errors(self):
        with open(f"{self.folder}/said", encoding="utf-8", errors="replace") as it:
            return it.read()[-2000:]

    def children(self):
        with open(f"/proc/{self.process.pid}/task/{self.process.pid}/children", encoding="ascii") as it:
            return [int(word) for word in it.read().split()]

    def kill(self):
        """Ends it by SIGKILL, and waits until the kernel has let go of the state, which it locks for the program."""
        children = self.children()
        self.process.send_signal(signal.SIGSTOP)  # a front whose core is gone begins again
        for pid in [*children, self.process.pid]:
            with contextlib.suppress(ProcessLookupError):
                os.kill(pid, signal.SIGKILL)
        self.process.wait()
        while any(os.path.exists(f"/proc/{pid}/stat") for pid in children):
            time.sleep(0.01)

    def is_up(self):
        return self.process.poll() is None

    def end(self):
        """Ends it by SIGTERM, and waits until the state is free again."""
        if self.is_up():
            children = self.children()
            self.process.terminate()
            self.process.wait()
            while any(os.path.exists(f"/proc/{pid}/stat") for pid in children):
                time.sleep(0.01)
        self.said.close()

    def __enter__(self):
        return self

    def __exit__(self, *_):
        self.end()
        if self.kept:
            self.kept.cleanup()


def ask(port, method, path, body=None, headers=None, timeout=60, address="127.0.0.1"):
    """One request on a connection of its own: status, headers and body."""
    link = http.client.HTTPConnection(address, port, timeout=timeout)
    try:
        link.request(method, path, body, headers or {})
        reply = link.getresponse()
        return reply.status, reply.headers, reply.read()
    except http.client.HTTPException as error:
        raise OSError(str(error)) from error
    finally:
        link.close()


def run(words, given="", timeout=120, **how):
    """The status and all that a program wrote."""
    try:
        ran = subprocess.run(words, input=given, capture_output=True, text=True, timeout=timeout, check=False, **how)
    except subprocess.TimeoutExpired:
        return 124, "it took too long"
    return ran.returncode, ran.stdout + ran.stderr


def has(program):
    if shutil.which(program):
        return True
    print(f"not tried: {program} (it isn't here)")
    return False


def digest(path):
    with open(path, "rb") as it:
        return hashlib.file_digest(it, "sha256").hexdigest()


class Verdict:
    """Counts what was tried and what failed; `close` ends the program."""

    def __init__(self, name):
        self.name, self.tried, self.failed = name, 0, 0

    def see(self, what, holds, more=""):
        self.tried += 1
        if not holds:
            self.failed += 1
            print(f"FAILED {what} {more}", flush=True)
        return holds

    def close(self, more=""):
        print(f"{self.name}: {self.tried} tried, {self.failed} failed {more}".rstrip(), flush=True)
        sys.exit(1 if self.failed else 0)
