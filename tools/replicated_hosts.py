"""Hosts of their own on one machine, three of which serve a replicated volume: what tools/replicated stands on."""
import ctypes
import os
import re
import shutil
import signal
import subprocess
import time
from pathlib import Path
from xml.etree import ElementTree

SERVERS, A, B = (1, 2, 3), 4, 5
OPTIONS = {
    "client.strict-locks": "on",
    "network.ping-timeout": "10",
    "server.tcp-user-timeout": "10",
    "server.keepalive-time": "5",
    "server.keepalive-interval": "2",
    "server.keepalive-count": "3",
    # B sees no bytes that A kept.
    "performance.write-behind": "off",
    "performance.flush-behind": "off",
    "performance.quick-read": "off",
    "performance.open-behind": "off",
    "performance.stat-prefetch": "off",
}
NEEDED = {
    "glusterd": "glusterfs-server",
    "gluster": "glusterfs-server",
    "mount.glusterfs": "glusterfs-client",
    "ip": "iproute2",
    "unshare": "util-linux",
    "nsenter": "util-linux",
}


class Wrong(Exception):
    pass


def missing():
    """What isn't there to make hosts."""
    gone = sorted({package for program, package in NEEDED.items() if not shutil.which(program)})
    if os.geteuid() != 0:
        return ["root", *gone]
    made = ["unshare", "--net", "--mount", "--pid", "--fork", "--mount-proc", "ip", "link", "add", "br0", "type", "bridge"]
    if not gone and subprocess.run(made, capture_output=True, check=False).returncode:
        gone.append("namespaces and bridges")
    return [*gone, *(["/dev/fuse"] if not Path("/dev/fuse").exists() else [])]


def want(holds, message):
    if not holds:
        raise Wrong(message)


def until(holds, seconds, message):
    """Waits until this holds. Fails with Wrong."""
    end = time.monotonic() + seconds
    while not holds():
        want(time.monotonic() < end, f"not within {seconds} s: {message}")
        time.sleep(0.2)


def ends_with_parent():
    """In a child: it is killed where this process ends, however it ends."""
    ctypes.CDLL(None).prctl(1, signal.SIGKILL)


class Host:
    """A host: processes with a network, mounts and numbers of their own. All of them end with the first one."""

    def __init__(self, number, folder):
        self.number, self.folder = number, folder / str(number)
        for name in ("lib", "log", "brick"):
            (self.folder / name).mkdir(parents=True)
        self.address = f"10.77.0.{number}"
        ask = ["unshare", "--net", "--mount", "--propagation", "private", "--pid", "--fork", "--kill-child", "--mount-proc"]
        # It takes leave of each process that ends there: a dead server would count as one that runs.
        leave = ["bash", "-c", "while :; do sleep 1000 & wait $!; done"]
        self.first = subprocess.Popen([*ask, *leave], preexec_fn=ends_with_parent, stdin=subprocess.DEVNULL)
        until(self.is_up, 10, f"host {number} is up")
        self.prepare()

    def is_up(self):
        children = Path(f"/proc/{self.first.pid}/task/{self.first.pid}/children").read_text().split()
        if not children:
            return False
        self.inner = children[0]
        return Path(f"/proc/{self.inner}/comm").read_text() == "bash\n"

    def prepare(self):
        """It has gluster's folders as its own."""
        self.run("mount", "--bind", self.folder / "lib", "/var/lib/glusterd")
        self.run("mount", "--bind", self.folder / "log", "/var/log/glusterfs")
        self.run("mount", "-t", "tmpfs", "none", "/run")
        self.run("mkdir", "-p", "/run/gluster", "/run/lock")
        self.run("ip", "link", "set", "lo", "up")

    def words(self, *words):
        """The words of a command on this host."""
        return ["nsenter", "-t", str(self.inner), "-m", "-n", "-p", "--", *map(str, words)]

    def run(self, *words, seconds=60, text=""):
        """Runs a command there. Fails with Wrong."""
        try:
            done = subprocess.run(self.words(*words), input=text, capture_output=True, text=True, timeout=seconds, check=False)
        except subprocess.TimeoutExpired:
            raise Wrong(f"host {self.number}: {' '.join(map(str, words))}: no end within {seconds} s") from None
        want(done.returncode == 0, f"host {self.number}: {' '.join(map(str, words))}: {done.returncode} {done.stdout}{done.stderr}")
        return done.stdout

    def end(self):
        self.first.kill()
        self.first.wait()


class Cluster:
    """The hosts and their bridge, and a volume that A and B have mounted."""

    def __init__(self, folder):
        self.folder, self.hosts, self.bridge = folder, {}, None
        # Where A and B, each for itself, have the volume.
        self.mount = folder / "volume"
        self.mount.mkdir()

    def make(self):
        self.bridge = Host(0, self.folder)
        self.bridge.run("ip", "link", "add", "br0", "type", "bridge")
        self.bridge.run("ip", "link", "set", "br0", "up")
        for number in (*SERVERS, A, B):
            self.join(Host(number, self.folder))
        for number in SERVERS:
            self.hosts[number].run("glusterd", "-p", "/run/glusterd.pid")
        for number in SERVERS[1:]:
            until(lambda number=number: self.gluster("peer", "probe", self.hosts[number].address, may_fail=True) is not None, 30, f"server {number} joins")
        until(lambda: self.gluster("pool", "list").count("Connected") == len(SERVERS), 30, "the servers know one another")
        bricks = [f"{self.hosts[number].address}:{self.hosts[number].folder}/brick/it" for number in SERVERS]
        self.gluster("volume", "create", "idx", "replica", str(len(SERVERS)), *bricks, "force")
        self.set(OPTIONS)
        self.gluster("volume", "start", "idx")
        for number in (A, B):
            self.mounts(self.hosts[number])

    def join(self, host):
        """Gives a host its link to the bridge."""
        self.hosts[host.number] = host
        inner, outer = f"ve{host.number}", f"pe{host.number}"
        names = ["ip", "link", "add", inner, "netns", str(host.inner), "type", "veth", "peer", "name", outer, "netns", str(self.bridge.inner)]
        subprocess.run(names, check=True)
        self.bridge.run("ip", "link", "set", outer, "master", "br0")
        self.bridge.run("ip", "link", "set", outer, "up")
        host.run("ip", "addr", "add", f"{host.address}/24", "dev", inner)
        host.run("ip", "link", "set", inner, "up")

    def gluster(self, *words, at=1, may_fail=False):
        try:
            return self.hosts[at].run("gluster", "--mode=script", *words)
        except Wrong:
            if may_fail:
                return None
            raise

    def set(self, options):
        for name, value in options.items():
            self.gluster("volume", "set", "idx", name, value)

    def get(self, name):
        """What an option of the volume is."""
        return self.gluster("volume", "get", "idx", name).split(name)[-1].split()[0]

    def mounts(self, host):
        host.run("mount", "-t", "glusterfs", f"{self.hosts[1].address}:/idx", self.mount)

    def mount_anew(self):
        for number in (A, B):
            self.hosts[number].run("umount", self.mount)
            self.mounts(self.hosts[number])

    def link(self, number, state):
        self.hosts[number].run("ip", "link", "set", f"ve{number}", state)

    def reconnections(self, number):
        """How often the client of a host found its servers."""
        log = self.hosts[number].folder / "log" / (str(self.mount).strip("/").replace("/", "-") + ".log")
        return log.read_text(errors="replace").count("Client-quorum is met")

    def brick(self, number):
        """The number of a server's process, as its host counts."""
        for node in ElementTree.fromstring(self.gluster("volume", "status", "idx", "--xml")).iter("node"):
            if node.findtext("hostname") == self.hosts[number].address and node.findtext("path", "").startswith("/"):
                return node.findtext("pid")
        raise Wrong(f"server {number} has no brick")

    def kill(self, number):
        self.hosts[number].run("kill", "-9", self.brick(number))

    def start(self, number):
        self.gluster("volume", "start", "idx", "force", at=number)

    def is_healed(self):
        # What was written behind a server's start, by a file that it had no longer open, it gets at a heal that is asked for.
        self.gluster("volume", "heal", "idx", may_fail=True)
        told = self.gluster("volume", "heal", "idx", "info", may_fail=True)
        return told is not None and re.findall(r"Number of entries: (\S+)", told) == ["0"] * len(SERVERS)

    def heals(self):
        until(self.is_healed, 120, "the servers have the same")

    def fills(self):
        """All servers are up, and have the same."""
        for number in SERVERS:
            self.start(number)
        self.heals()

    def end(self):
        for host in (*self.hosts.values(), self.bridge):
            if host:
                host.end()
