"""Clients that write and delete files of their own while a server is killed, and what they were told of each."""
import http.client
import os
import random
import threading

from serving import ask


class Writers:
    """What was acknowledged of each file, and what was asked for and isn't answered."""

    def __init__(self, verdict, clients=6, names=40):
        self.verdict, self.clients, self.names = verdict, clients, names
        self.kept, self.flying, self.threads, self.stop = {}, {}, [], None
        self.asked = {}  # since `begin`

    def begin(self, server):
        """Has the clients write until `end`, or until the server is gone."""
        self.flying.clear()
        self.asked.clear()
        self.stop = threading.Event()
        self.threads = [threading.Thread(target=self.write, args=(server, number)) for number in range(self.clients)]
        for it in self.threads:
            it.start()

    def end(self):
        self.stop.set()
        for it in self.threads:
            it.join()

    def write(self, server, number):
        rng = random.Random()
        try:
            link = http.client.HTTPConnection("127.0.0.1", server.port, timeout=60)
            while not self.stop.is_set():
                name = f"/c{number}-{rng.randrange(self.names)}"
                body = None if rng.random() < 0.1 else os.urandom(rng.randrange(1, 3000)).hex().encode()
                self.flying[name] = body
                self.asked.setdefault(name, []).append(body)
                link.request("DELETE" if body is None else "PUT", name, body)
                reply = link.getresponse()
                reply.read()
                if body is None and reply.status in (204, 404):
                    self.kept[name] = (None, None)
                elif body is not None and reply.status in (201, 204):
                    self.kept[name] = (body, reply.headers["etag"])
                else:
                    self.verdict.see(f"{name} {reply.status}", False)
                self.flying.pop(name, None)
        except (OSError, http.client.HTTPException):
            pass

    def look(self, server, told):
        """Sees that each file is what was acknowledged, or what was asked for and not answered."""
        for name, (body, tag) in list(self.kept.items()):
            status, headers, got = ask(server.port, "GET", name)
            found = (None, None) if status == 404 else (got, headers["etag"])
            if name in self.flying and found[0] == self.flying[name]:
                self.kept[name] = found
            else:
                self.verdict.see(f"{told}: {name}", found == (body, tag))
