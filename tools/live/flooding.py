"""Crowds of connections that send without end, and what others see meanwhile, for tools/live/floods."""
import base64
import contextlib
import http.client
import multiprocessing
import selectors
import signal
import socket
import time

HOST = b"Host: localhost\r\n"


def shown(name, password):
    return "Basic " + base64.b64encode(f"{name}:{password}".encode()).decode()


def at(network):
    """Twenty addresses of a network of this machine."""
    return lambda number: f"127.0.{network}.{1 + number % 20}"


def link_from(port, address, wait=None, room=None):
    """A connection from an address of this machine."""
    link = socket.socket()
    if room:
        link.setsockopt(socket.SOL_SOCKET, socket.SO_RCVBUF, room)
    link.settimeout(wait)
    link.bind((address, 0))
    link.connect(("127.0.0.1", port))
    return link


def fields(pid, *names):
    """Numbers of bytes in the list that the kernel has of a process's memory."""
    with open(f"/proc/{pid}/status", encoding="ascii") as it:
        told = dict(line.split(":", 1) for line in it)
    return [1024 * int(told[name].split()[0]) for name in names]


def memory(server, what):
    """A number of bytes in the lists that the kernel has of the memory of the front and of the core."""
    return [fields(pid, what)[0] for pid in (server.process.pid, *server.children())]


def forget_peaks(server):
    """The peaks of memory are those from now on."""
    for pid in (server.process.pid, *server.children()):
        with open(f"/proc/{pid}/clear_refs", "w", encoding="ascii") as it:
            it.write("5")


def percentile(took, share):
    """In milliseconds."""
    return 1000 * sorted(took)[min(len(took) - 1, int(len(took) * share))]


def told(results, name, work, *rest):
    signal.signal(signal.SIGINT, signal.SIG_IGN)
    results.put((name, work(*rest)))


def side_by_side(jobs, wait):
    """What each of these found: a name, and what is called with what."""
    results = multiprocessing.Queue()
    workers = [multiprocessing.Process(target=told, args=(results, *job)) for job in jobs]
    for worker in workers:
        worker.start()
    found = dict(results.get(timeout=wait) for _ in workers)
    for worker in workers:
        worker.join()
    return found


def gets(port, end, stays, headers, address="127.0.0.1"):
    """The seconds that each GET of a user took, and how many weren't answered 200."""
    took, failed, link = [], 0, None
    while time.time() < end:
        began = time.time()
        try:
            if link is None:
                link = http.client.HTTPConnection("127.0.0.1", port, timeout=5, source_address=(address, 0))
            link.request("GET", "/q", None, headers)
            reply = link.getresponse()
            good = reply.status == 200 and reply.read() == b"there"
        except (OSError, http.client.HTTPException):
            good, link = False, None
        took.append(time.time() - began)
        failed += not good
        if link and not stays:
            link.close()
            link = None
        time.sleep(max(0.0, began + 0.02 - time.time()))
    return took, failed


class Crowd:
    """Connections that are opened again when they are closed. Each sends its first bytes, and then one more byte each two seconds, and
    reads nothing but its end where it is none that reads."""

    def __init__(self, port, count, address_of, first=b"", more=b"", room=None):
        self.port, self.address_of, self.first, self.more, self.room = port, address_of, first, more, room
        self.links, self.closed, self.longest, self.count = {}, 0, 0.0, count
        self.selector = selectors.DefaultSelector()

    def open(self, number):
        try:
            link = link_from(self.port, self.address_of(number), 2, self.room)
            link.sendall(self.first)
            link.setblocking(False)
        except OSError:
            return
        self.links[number] = (link, time.time())
        if not self.room:
            self.selector.register(link, selectors.EVENT_READ, number)

    def drop(self, number):
        link, since = self.links.pop(number)
        self.closed, self.longest = self.closed + 1, max(self.longest, time.time() - since)
        with contextlib.suppress(KeyError):
            self.selector.unregister(link)
        link.close()

    def see_ends(self):
        for key, _ in self.selector.select(0.05):
            try:
                if not key.fileobj.recv(65536):
                    self.drop(key.data)
            except BlockingIOError:
                pass
            except OSError:
                self.drop(key.data)

    def trickle(self):
        for number in list(self.links):
            try:
                self.links[number][0].send(self.more)
            except BlockingIOError:
                pass
            except OSError:
                self.drop(number)

    def attack(self, end):
        next_byte = time.time() + 2
        while time.time() < end:
            for number in [n for n in range(self.count) if n not in self.links][:100]:
                self.open(number)
            self.see_ends()
            if self.more and time.time() > next_byte:
                next_byte += 2
                self.trickle()
        return {"closed": self.closed, "open": len(self.links), "longest": round(self.longest, 1)}


class Pipelines:
    """Connections that send the same requests over and over, as fast as they are taken, read what comes for them, and are opened again where they are
    closed."""

    def __init__(self, port, count, address_of, request):
        self.port, self.count, self.address_of = port, count, address_of
        self.piece = request * max(1, (1 << 18) // len(request))
        self.selector, self.sent, self.at, self.statuses, self.opened = selectors.DefaultSelector(), 0, {}, {}, 0

    def open(self, number):
        with contextlib.suppress(OSError):
            link = link_from(self.port, self.address_of(number), 2)
            link.setblocking(False)
            self.selector.register(link, selectors.EVENT_READ | selectors.EVENT_WRITE, number)
            self.at[number], self.opened = 0, self.opened + 1

    def close(self, key):
        self.selector.unregister(key.fileobj)
        key.fileobj.close()
        del self.at[key.data]

    def read(self, key):
        """Whether more may come. The statuses are those of what comes first in a piece."""
        with contextlib.suppress(BlockingIOError):
            came = key.fileobj.recv(1 << 18)
            if came.startswith(b"HTTP/1.1 "):
                status = int(came[9:12])
                self.statuses[status] = self.statuses.get(status, 0) + 1
            return bool(came)
        return True

    def send(self, key):
        with contextlib.suppress(BlockingIOError):
            count = key.fileobj.send(memoryview(self.piece)[self.at[key.data]:])
            self.sent += count
            self.at[key.data] = (self.at[key.data] + count) % len(self.piece)

    def go_on(self, key, events):
        try:
            if events & selectors.EVENT_READ and not self.read(key):
                self.close(key)
            elif events & selectors.EVENT_WRITE:
                self.send(key)
        except OSError:
            self.close(key)

    def attack(self, end):
        while time.time() < end:
            for number in [number for number in range(self.count) if number not in self.at]:
                self.open(number)
            for key, events in self.selector.select(0.05):
                self.go_on(key, events)
        return {"megabytes": self.sent >> 20, "opened": self.opened, "statuses": self.statuses}
