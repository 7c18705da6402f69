"""What benches start and stop: a PostgreSQL server in a folder of its own, and hosts of their own, network namespaces that a wire ties to
this machine. Hosts need iproute2 and root."""
import contextlib
import glob
import itertools
import os
import pwd
import re
import shutil
import signal
import socket
import subprocess
import sys

# for benches (RFC 2544): host N has 198.18.N.2, and this machine 198.18.N.1 at the other end of the wire
NETWORK = "198.18"
# a peer that is gone is noticed within seconds
ALIVE = {"keepalives_idle": 5, "keepalives_interval": 2, "keepalives_count": 3, "tcp_user_timeout": 10_000}


def end_by_sigterm():
    """A process that is told to end lets go of all that it has started: its blocks are left, as by an error."""
    signal.signal(signal.SIGTERM, lambda *_: sys.exit("ended by SIGTERM"))


def free_port():
    with socket.socket() as probe:
        probe.bind(("127.0.0.1", 0))
        return probe.getsockname()[1]


def can_have_hosts():
    return os.geteuid() == 0 and shutil.which("ip") is not None


class Host:
    """A network namespace and its wire. `outside` is this machine's address on the wire, `address` the host's."""

    def __init__(self, number):
        self.name = f"bench{os.getpid()}-{number}"
        self.wire, inner = f"b{os.getpid()}o{number}", f"b{os.getpid()}i{number}"
        self.outside, self.address = f"{NETWORK}.{number}.1", f"{NETWORK}.{number}.2"
        ip("netns", "add", self.name)
        ip("link", "add", self.wire, "type", "veth", "peer", "name", inner, "netns", self.name)
        ip("addr", "add", f"{self.outside}/30", "dev", self.wire)
        self.join()
        for words in (["link", "set", "lo", "up"], ["addr", "add", f"{self.address}/30", "dev", inner], ["link", "set", inner, "up"]):
            ip("-n", self.name, *words)

    def words(self, *words):
        """The words that run a program on the host."""
        return ["ip", "netns", "exec", self.name, *words]

    def cut(self):
        """Nothing passes the wire."""
        ip("link", "set", self.wire, "down")

    def join(self):
        ip("link", "set", self.wire, "up")

    def remove(self):
        subprocess.run(["ip", "link", "del", self.wire], check=False)
        subprocess.run(["ip", "netns", "del", self.name], check=False)


def ip(*words):
    return subprocess.run(["ip", *words], check=True, stdout=subprocess.PIPE, text=True).stdout


def free_numbers():
    """The numbers of hosts that no other bench has just now."""
    taken = set(re.findall(rf"inet {NETWORK}\.(\d+)\.1/", ip("-4", "addr")))
    return (number for number in range(1, 255) if str(number) not in taken)


@contextlib.contextmanager
def hosts(count):
    """So many hosts, which are gone afterwards."""
    made = []
    try:
        for number in itertools.islice(free_numbers(), count):
            made.append(Host(number))
        yield made
    finally:
        for host in made:
            host.remove()


class Postgres:
    """A server of the machine's packages, in a folder of its own, that listens at these addresses."""

    def __init__(self, folder, addresses):
        self.bin = (sorted(glob.glob("/usr/lib/postgresql/*/bin")) or [""])[-1]
        self.data, self.addresses, self.port = f"{folder}/data", addresses, free_port()
        self.as_user = {}
        if os.geteuid() == 0:
            # a server refuses to run as root
            user = pwd.getpwnam("postgres")
            os.chown(folder, user.pw_uid, user.pw_gid)
            self.as_user = {"user": user.pw_uid, "group": user.pw_gid, "extra_groups": []}
        self.run("initdb", "-D", self.data, "-U", "office", "-A", "trust", "--no-sync")
        with open(f"{self.data}/pg_hba.conf", "a", encoding="ascii") as rules:
            rules.write(f"host all all {NETWORK}.0.0/16 trust\n")
        self.start()

    def run(self, name, *words):
        ran = subprocess.run([f"{self.bin}/{name}", *words], stdout=subprocess.PIPE, stderr=subprocess.STDOUT, cwd="/", check=False, **self.as_user)
        if ran.returncode:
            sys.exit(f"{name}: {ran.stdout.decode()}")

    def start(self):
        settings = {"port": self.port, "listen_addresses": ",".join(self.addresses), "unix_socket_directories": "", "max_connections": 50}
        settings.update({f"tcp_{name.removeprefix('tcp_')}": value for name, value in ALIVE.items()})
        options = " ".join(f"-c {name}='{value}'" for name, value in settings.items())
        self.run("pg_ctl", "-D", self.data, "-l", f"{self.data}/log", "-o", options, "-w", "-t", "600", "start")

    def stop(self, how):
        self.run("pg_ctl", "-D", self.data, "-m", how, "-w", "-t", "600", "stop")

    def where(self, address="127.0.0.1"):
        """How a client reaches it there."""
        words = {"host": address, "port": self.port, "user": "office", "dbname": "postgres", "connect_timeout": 10, **ALIVE}
        return " ".join(f"{name}={value}" for name, value in words.items())
