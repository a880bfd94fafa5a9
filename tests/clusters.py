"""Nodes of etcd and replicas on loopback, started by tests, which end with them."""

import contextlib
import pathlib
import signal
import socket
import subprocess

import servers
from servers import Peer, Server, wait_for


def free_ports(count):
    with contextlib.ExitStack() as stack:
        many = [stack.enter_context(socket.socket()) for _ in range(count)]
        for it in many:
            it.bind(("127.0.0.1", 0))
        return [it.getsockname()[1] for it in many]


class Cluster:
    """Three nodes of etcd, and replicas of one desk."""

    def __init__(self, program, folder, *words, declare=None, every=2000, replicas=3, nodes=3, scheme="http", tls=(), start=True, data=None):
        self.program, self.folder, self.scheme, self.tls = program, pathlib.Path(folder), scheme, tls
        ports = free_ports(2 * nodes)
        self.ports, self.peers = ports[:nodes], ports[nodes:]
        self.data = {it: self.folder / f"etcd{it}" for it in range(nodes)} | (data or {})
        self.nodes, self.servers = {}, {}
        if declare is None:
            declare = self.folder / "declarations"
            declare.write_text(servers.DECLARED)
        self.words = ["--declare", declare, "--checkpoint-every", every, "--keep-segments", *words]
        self.programs = {it: [] for it in range(replicas)}
        for it in self.data:
            self.start_node(it)
        if start:
            for it in range(replicas):
                self.start_replica(it)

    def start_node(self, at):
        own, peer = f"{self.scheme}://127.0.0.1:{self.ports[at]}", f"http://127.0.0.1:{self.peers[at]}"
        members = ",".join(f"e{it}=http://127.0.0.1:{port}" for it, port in enumerate(self.peers))
        with (self.folder / f"etcd{at}.log").open("ab") as log:
            self.nodes[at] = subprocess.Popen(
                ["etcd", "--name", f"e{at}", "--data-dir", self.data[at], "--listen-client-urls", own, "--advertise-client-urls", own,
                 "--listen-peer-urls", peer, "--initial-advertise-peer-urls", peer, "--initial-cluster", members, "--initial-cluster-state",
                 "existing" if self.data[at].exists() else "new", "--auto-compaction-mode", "revision", "--auto-compaction-retention", "2000",
                 "--log-level", "error", *self.tls], stdout=subprocess.DEVNULL, stderr=log,
            )  # fmt: skip

    def start_replica(self, at, *words, module="stmdesk.server", wait=False, **more):
        count = len(self.ports)
        order = ",".join(f"127.0.0.1:{self.ports[(at + it) % count]}" for it in range(count))
        given = ["--replicas", order, "--name", f"r{at}", "--folder", self.folder / f"r{at}", *self.words, *self.programs[at], *words]
        self.servers[at] = Server(self.program, self.folder, *given, module=module, name=f"s{at}", wait=wait, **more)
        return self.servers[at]

    @property
    def paths(self):
        return [str(self.folder / f"s{it}") for it in sorted(self.programs)]

    def status(self, at, what="replica"):
        """What a replica says of itself; None if it doesn't."""
        with contextlib.suppress(OSError, IndexError, ValueError):
            with Peer(self.servers[at].path) as it:
                it.socket.settimeout(5)  # one that is stopped says nothing
                it.send(f"{what}\n")
                words = it.line().split()
                text = b"".join(it.file.readline() for _ in range(int(words[8])))
                return {"name": words[1], "role": words[2], "applied": int(words[4]), "chain": words[6], "text": text}
        return None

    def seen(self, at, what="replica"):
        """The same of a replica that runs: what it says when it has the time."""
        return wait_for(lambda: self.status(at, what))

    def is_leading(self, at):
        return self.servers[at].process.poll() is None and (self.status(at) or {}).get("role") == "leader"

    def leader(self, but=None):
        """The number of the replica that leads, other than this one."""
        return wait_for(lambda: [it for it in self.servers if it != but and self.is_leading(it)])[0]

    def wait_equal(self):
        """Waits until all replicas have applied the same. Returns what they say of themselves, with their histories."""
        wait_for(lambda: len({(self.status(it) or {"applied": it})["applied"] for it in self.servers}) == 1)
        return [self.seen(it, "replica history") for it in self.servers]

    def stop(self):
        for it in [*(it.process for it in self.servers.values()), *self.nodes.values()]:
            if it.poll() is None:
                it.send_signal(signal.SIGCONT)
                it.kill()
                it.wait()

    def __enter__(self):
        return self

    def __exit__(self, *_):
        self.stop()


