"""Fronts before models of the core, and parts of tools/live/front: floods, turns, replies that nobody takes, the room that is told, and proxies."""
import contextlib
import re
import select
import socket
import statistics
import subprocess
import sys
import tempfile
import threading
import time

from serving import TOP, free_port

CORES = f"{TOP}/tools/live/fronting.py"
OWN = 16 << 20  # bytes: the most that the front takes but for replies


def started(front, core, *options):
    """A front with one of these cores, and its port."""
    port = free_port()
    server = subprocess.Popen([front, "--ready", "ready", *options, f"127.0.0.1:{port}", sys.executable, CORES, core], stderr=subprocess.PIPE)
    server.stderr.readline()
    return server, port


@contextlib.contextmanager
def running(front, core, *options):
    """A front with one of these cores, and its port; it is ended."""
    server, port = started(front, core, *options)
    try:
        yield server, port
    finally:
        server.terminate()
        server.wait(20)
        server.stderr.close()


def send(link, bytes_):
    """Sends bytes, unless the connection is closed meanwhile."""
    with contextlib.suppress(OSError):
        link.sendall(bytes_)


def peak(pid):
    """The most bytes of memory that a process had; 0 where it has ended."""
    with open(f"/proc/{pid}/status", encoding="ascii") as it:
        return 1024 * next((int(line.split()[1]) for line in it if line.startswith("VmHWM:")), 0)


@contextlib.contextmanager
def sending(links, bytes_):
    """Connections that send these bytes, as far as they are taken; they are shut down."""
    senders = [threading.Thread(target=send, args=(link, bytes_)) for link in links]
    for sender in senders:
        sender.start()
    try:
        yield
    finally:
        for link in links:
            with contextlib.suppress(OSError):
                link.shutdown(socket.SHUT_RDWR)
        for sender in senders:
            sender.join()
        for link in links:
            link.close()


def see_flood(front, failures):
    """Clients that send without end, more than the core can take: what waits for it doesn't grow."""
    with running(front, "sink") as (server, port):
        with sending([link_from("127.0.0.1", port) for _ in range(32)], bytes(16 << 20)):
            time.sleep(3)
            most = peak(server.pid)
            if server.poll() is not None:
                failures.append(f"clients that send without end end the front: status {server.returncode}")
    if most > OWN:
        failures.append(f"clients that send without end make the front take {most >> 20} MB")
    return 1


def link_from(address, port, room=None):
    """A connection from an address of this machine."""
    link = socket.socket()
    if room:
        link.setsockopt(socket.SOL_SOCKET, socket.SO_RCVBUF, room)
    link.settimeout(5)
    link.bind((address, 0))
    link.connect(("127.0.0.1", port))
    return link


def waits(port, address, seconds):
    """How long each request of one client waits."""
    times, end = [], time.time() + seconds
    with link_from(address, port) as link:
        while (begun := time.time()) < end:
            with contextlib.suppress(TimeoutError):
                link.sendall(b"S")
                link.recv(1)
            times.append(time.time() - begun)
            time.sleep(0.005)
    return times


def see_turns(front, failures):
    """While 64 connections of one address send without end what is much work, each byte of it, one of another address is answered in little more time than
    what the core has ahead."""
    with running(front, "work") as (_, port), sending([link_from("127.0.0.2", port) for _ in range(64)], b"R" * (4 << 20)):
        time.sleep(2)  # until it is known how much work that is
        other = waits(port, "127.0.0.3", 3)
    if statistics.median(other) > 0.03:
        failures.append(f"one address makes another wait: {1000 * statistics.median(other):.0f} ms of {len(other)} requests")
    return 1


def orphans():
    """How many closed connections the kernel still has for bytes that nobody took."""
    with open("/proc/net/sockstat", encoding="ascii") as it:
        return int(re.search(r"orphan (\d+)", it.read())[1])


def see_readers(front, failures):
    """Clients of four addresses that read nothing of what they asked for: the front keeps to the memory for it, who reads goes on, and so does who reads slowly
    from another address."""
    with running(front, "endless", "--unsent", str(8 << 20)) as (server, port), contextlib.ExitStack() as links:
        slow = links.enter_context(link_from("127.0.0.3", port, 65536))
        slow.sendall(b"M")
        for number in range(480):
            links.enter_context(link_from(f"127.0.0.{20 + number % 4}", port, 4096)).sendall(b"M")
        got, end = 0, time.time() + 4
        with contextlib.suppress(OSError):
            while time.time() < end and (piece := slow.recv(16384)):
                got += len(piece)
                time.sleep(0.002)
        most, others, left = peak(server.pid), waits(port, "127.0.0.4", 0.5), orphans()
    if most > OWN + (8 << 20):
        failures.append(f"who doesn't read makes the front take {most >> 20} MB")
    if time.time() < end or got < 1 << 20:
        failures.append(f"who reads slowly is cut off for others who don't read at all, after {got} bytes")
    if max(others) > 4:
        failures.append("nobody is answered beside who doesn't read")
    if left > 100:
        failures.append(f"who was closed since he didn't read still has memory of the kernel: {left} connections")
    return 4


def see_room(front, failures):
    """The room that the core may take is told once it answered, and anew after many bytes."""
    with tempfile.TemporaryDirectory() as folder, running(front, "limited", "--room", folder) as (_, port), link_from("127.0.0.2", port) as link:
        told = room_of(link)
        if not 100 << 20 < told < 600 << 20:
            failures.append(f"the room that is told at first is {told >> 20} MB, of a core that may have 600")
        late = 0
        for _ in range(5):
            begun, before = time.time(), room_of(link)
            link.sendall(b"T" + bytes(before // 16 + (2 << 20)) + b"!")
            link.recv(1)
            late += time.time() < begun + 0.9 and room_of(link) > before - (8 << 20)
        if late > 1:
            failures.append(f"the room that is told isn't what is left after many bytes: {late} of 5 times")
    return 2


def room_of(link):
    """What the core was told last of its room."""
    link.sendall(b"?")
    return int(link.recv(100))


PROXY = "127.0.0.9"
HEADERS = [
    (b"PROXY TCP4 192.0.2.7 192.0.2.1 56324 443\r\n", b"192.0.2.7"), (b"PROXY TCP6 2001:db8::7 2001:db8::1 56324 443\r\n", b"2001:db8::7"),
    (b"PROXY UNKNOWN\r\n", PROXY.encode()), (b"\r\n\r\n\0\r\nQUIT\n\x21\x11\0\x0c" + bytes([192, 0, 2, 8]) + bytes(8), b"192.0.2.8"),
    (b"\r\n\r\n\0\r\nQUIT\n\x20\0\0\0", PROXY.encode()), (b"GET / HTTP/1.1\r\n", b""), (b"PROXY TCP4 192.0.2.7 192.0.2.1 56324 65536\r\n", b""),
    (b"PROXY UNKNOWN " + b"f" * 92 + b"\r\n", b""), (b"\r\n\r\n\0\r\nQUIT\n\x21\x11\0\x0b" + bytes(11), b""),
]


def see_proxies(front, failures):
    """Whose a connection is that a proxy passes on, and which are closed; what comes with the header isn't lost. (tools/live/proxies has more.)"""
    with running(front, "told", "--proxy", PROXY) as (_, port):
        for header, wanted in HEADERS:
            for cut in (0, 1, 8, len(header) - 1):
                if (got := by_proxy(port, header, cut)) != (wanted + b" hello" if wanted else b""):
                    failures.append(f"by a proxy, {header[:50]}, cut at {cut}: {got}")
        with link_from("127.0.0.3", port) as link:
            link.sendall(b"PROXY")
            if (got := link.recv(100) if select.select([link], [], [], 5)[0] else None) != b"127.0.0.3 PROXY":
                failures.append(f"of an address that is no proxy's: {got}")
    return 4 * len(HEADERS) + 1


def by_proxy(port, header, cut):
    """What comes back for a header that is cut in two, with some bytes behind it."""
    with link_from(PROXY, port) as link, contextlib.suppress(OSError):
        link.sendall(header[:cut])
        time.sleep(0.02 if cut else 0)
        link.sendall(header[cut:] + b"hello")
        return link.recv(1000)
    return b""
