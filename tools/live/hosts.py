"""Hosts as namespaces of this machine, on one switch: each has a network, mounts and processes of its own, and all of these end with it, or with the trial."""
import contextlib
import ctypes
import os
import subprocess

from serving import run

LIBC = ctypes.CDLL(None, use_errno=True)
NETWORK = 0x40000000  # CLONE_NEWNET


def join_network(path):
    """Has the sockets that this thread opens from now on be of this network."""
    with open(path, "rb") as it:
        if LIBC.setns(it.fileno(), NETWORK) != 0:
            raise OSError(ctypes.get_errno(), "setns")


class Host:
    """A host of its own. Its first process reads from the trial: where that one ends, however it does, the host ends with all that runs on it."""

    def __init__(self, name):
        self.name = name
        words = ["unshare", "--net", "--mount", "--uts", "--pid", "--fork", "--kill-child", "--mount-proc", "bash", "-c", "echo up; read -r"]
        self.process = subprocess.Popen(words, stdin=subprocess.PIPE, stdout=subprocess.PIPE)
        if self.process.stdout.readline() != b"up\n":
            raise OSError("there are no namespaces")
        with open(f"/proc/{self.process.pid}/task/{self.process.pid}/children", encoding="ascii") as it:
            self.pid = int(it.read().split()[0])
        self.path = f"/proc/{self.pid}/ns/net"
        self.must("hostname", name)
        self.must("ip", "link", "set", "lo", "up")

    def words(self, words):
        return ["nsenter", "--target", str(self.pid), "--net", "--mount", "--uts", "--pid", "--", *words]

    def run(self, *words, timeout=60):
        return run(self.words(words), timeout=timeout)

    def must(self, *words, timeout=60):
        """Runs a program that has to work, and gives what it said."""
        status, said = self.run(*words, timeout=timeout)
        if status != 0:
            raise OSError(f"{self.name}: {' '.join(words)}: status {status}: {said.strip()}")
        return said

    def start(self, *words, said=subprocess.DEVNULL):
        return subprocess.Popen(self.words(words), stdin=subprocess.DEVNULL, stdout=said, stderr=said)

    @contextlib.contextmanager
    def network(self):
        """Has this thread be on the host's network."""
        join_network(self.path)
        try:
            yield
        finally:
            join_network(f"/proc/{os.getpid()}/ns/net")

    def end(self):
        self.process.stdin.close()
        self.process.wait()


class Switch(Host):
    """The host of the clients, with the switch that the others are on."""

    def __init__(self, address):
        super().__init__("switch")
        self.must("ip", "link", "add", "switch", "type", "bridge")
        self.must("ip", "address", "add", address, "dev", "switch")
        self.must("ip", "link", "set", "switch", "up")

    def join(self, host, address):
        """Puts a cable between a host's eth0 and the switch."""
        words = ["ip", "link", "add", host.name, "netns", str(self.pid), "type", "veth", "peer", "name", "eth0", "netns", str(host.pid)]
        status, said = run(words)
        if status != 0:
            raise OSError(f"{' '.join(words)}: {said.strip()}")
        self.must("ip", "link", "set", host.name, "master", "switch", "up")
        host.must("ip", "address", "add", address, "dev", "eth0")
        host.must("ip", "link", "set", "eth0", "up")
