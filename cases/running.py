"""Runs the programs of a case, over sockets of this machine where it has several."""
import collections
import contextlib
import itertools
import os
import re
import socket
import subprocess
import tempfile
import time

BUILT = os.path.join(os.path.dirname(os.path.dirname(os.path.abspath(__file__))), "crates", "r2p2_suite", "out", "r2p2_suite")
PROGRAM = os.path.abspath(os.environ.get("R2P2_SUITE") or BUILT)
SECONDS = 60  # for one case

# How a run ended: its status, which is nothing where it was ended after so many seconds, and what it printed.
Ended = collections.namedtuple("Ended", "run status output errors")

# How a case ended: how its runs did, the files that they left, by name, and the datagrams that came to its peers, by theirs.
Outcome = collections.namedtuple("Outcome", "ended files received")


def is_built():
    return os.access(PROGRAM, os.X_OK)


def runs_of(case):
    return list(itertools.chain(case.servers, *case.clients))


def names_in(case):
    """The names in braces that mean addresses in words of the case: {client}, {server}, and those of its programs and peers."""
    runs = runs_of(case)
    known = {b"{%s}" % each.encode() for each in ["server", "client"] + [each.name for each in runs + case.peers]}
    return {name for run in runs for word in run.words for name in re.findall(rb"\{\w+\}", word)} & known


def is_free(port):
    with socket.socket(socket.AF_INET, socket.SOCK_DGRAM) as one:
        try:
            one.bind(("127.0.0.1", port))
            return True
        except OSError:
            return False


def free_addresses(count):
    """So many addresses of this machine whose ports are free for UDP. A client's port stays free until it is started: the system gives
    out no such ports by itself, and another run of this file looks for them at another place."""
    ports = range(10_000 + os.getpid() % 1_000 * 20, 65_536)
    return [b"127.0.0.1:%d" % port for port in itertools.islice(filter(is_free, ports), count)]


def is_bound(port):
    """Whether a socket of this machine is bound to a UDP port."""
    with open("/proc/net/udp", encoding="ascii") as table:
        return any(line.split()[1].endswith(f":{port:04X}") for line in table.readlines()[1:])


def has_loopback():
    """Whether a datagram comes from one socket of this machine to another, and the system lists which ports are bound."""
    try:
        with socket.socket(socket.AF_INET, socket.SOCK_DGRAM) as one, socket.socket(socket.AF_INET, socket.SOCK_DGRAM) as other:
            one.bind(("127.0.0.1", 0))
            one.settimeout(5)
            other.sendto(b"?", one.getsockname())
            return one.recv(1) == b"?" and is_bound(one.getsockname()[1])
    except OSError:
        return False


def own_port(words):
    """The port of this machine at which a program with these words listens: at --listen, or as the member --me of --members. Nothing where
    it is none."""
    options = dict(zip(words[1::2], words[2::2]))
    members, number = options.get(b"--members", b"").split(b","), options.get(b"--me", b"")
    member = members[int(number)] if number.isdigit() and int(number) < len(members) else b""
    port = re.fullmatch(rb"127\.0\.0\.1:(\d+)", options.get(b"--listen", b"" if words[:1] == [b"replay"] else member))
    return int(port[1]) if port else None


class Running:
    """A run of the program that was started in a folder. `addresses` are those that words name in braces."""

    def __init__(self, run, addresses, folder):
        self.run = run
        words = [re.sub(rb"\{\w+\}", lambda name: addresses.get(name[0], name[0]), word) for word in run.words]
        self.port = own_port(words)
        self.output, self.errors = tempfile.TemporaryFile(), tempfile.TemporaryFile()
        with tempfile.TemporaryFile() as given:
            given.write(run.input)
            given.seek(0)
            self.process = subprocess.Popen(
                [os.fsencode(PROGRAM)] + words, stdin=given, stdout=self.output, stderr=self.errors, cwd=folder
            )

    def listens(self, end):
        """Waits until the program has bound its port, where it has one, or ended."""
        while self.port and self.process.poll() is None and not is_bound(self.port) and time.monotonic() < end:
            time.sleep(0.002)

    def spends_turns(self, end):
        """Sends datagrams without bytes to the program's port, where it has one, until it ends."""
        with socket.socket(socket.AF_INET, socket.SOCK_DGRAM) as outside:
            while self.port and self.process.poll() is None and time.monotonic() < end:
                for _ in range(50):
                    outside.sendto(b"", ("127.0.0.1", self.port))
                time.sleep(0.002)

    def lines(self):
        """How many lines it has printed so far."""
        return os.pread(self.output.fileno(), os.fstat(self.output.fileno()).st_size, 0).count(b"\n")

    def ends(self, end):
        """How it ends."""
        try:
            self.process.wait(timeout=max(0.1, end - time.monotonic()))
        except subprocess.TimeoutExpired:
            return Ended(self.run, None, b"", b"")
        for text in (self.output, self.errors):
            text.seek(0)
        return Ended(self.run, self.process.returncode, self.output.read(), self.errors.read())

    def kill(self):
        self.process.kill()
        self.process.wait()


def port_of(name, addresses):
    """The port of the address that a name in braces means."""
    return int(addresses[b"{%s}" % name.encode()].rpartition(b":")[2])


def socket_of(peer, addresses):
    """A socket at a peer's address."""
    outside = socket.socket(socket.AF_INET, socket.SOCK_DGRAM)
    outside.bind(("127.0.0.1", port_of(peer.name, addresses)))
    return outside


def send_all(peer, outside, addresses):
    """Sends a peer's datagrams from its socket."""
    for datagram in peer.datagrams:
        outside.sendto(datagram, ("127.0.0.1", port_of(peer.server, addresses)))


def received_by(outside):
    """The datagrams that came to a socket."""
    outside.setblocking(False)
    found = []
    with contextlib.suppress(BlockingIOError):
        while True:
            found.append(outside.recv(65_536))
    return found


def are_halfway(calling, end):
    """Waits until clients have together printed half as many lines as they read, or one has ended."""
    half = sum(each.run.input.count(b"\n") for each in calling) / 2
    while time.monotonic() < end and all(each.process.poll() is None for each in calling):
        if sum(each.lines() for each in calling) >= half:
            break
        time.sleep(0.002)


def write_files(files, folder):
    for file in files:
        if file.before is not None:
            with open(os.path.join(folder, file.name), "wb") as out:
                out.write(file.before)


def files_in(folder):
    """The bytes of each file that is in a folder, or further inside."""
    found = {}
    for place, _, names in os.walk(folder):
        for path in (os.path.join(place, name) for name in names):
            with open(path, "rb") as file:
                found[os.path.relpath(path, folder)] = file.read()
    return found


def run_case(case):
    """Runs the programs of a case in a folder that has its files and no others."""
    names = sorted(names_in(case))
    addresses = dict(zip(names, free_addresses(len(names))))
    end = time.monotonic() + SECONDS
    with tempfile.TemporaryDirectory() as folder, contextlib.ExitStack() as started:
        write_files(case.files, folder)

        def start(run):
            running = Running(run, addresses, folder)
            started.callback(running.kill)
            return running

        ended = []
        serving = [start(run) for run in case.servers]
        for each in serving:
            each.listens(end)
        sockets = [started.enter_context(socket_of(peer, addresses)) for peer in case.peers]
        for peer, outside in zip(case.peers, sockets):
            send_all(peer, outside, addresses)
        for line, restarts in zip(case.clients, case.restarts):
            calling = [start(run) for run in line]
            for place in (place for place, each in enumerate(serving) if each.run.name in restarts):
                are_halfway(calling, end)
                serving[place].kill()
                serving[place] = start(serving[place].run)
            ended += [each.ends(end) for each in calling]
        for each in serving:
            each.spends_turns(end)
            ended.append(each.ends(end))
        received = {peer.name: received_by(outside) for peer, outside in zip(case.peers, sockets)}
        return Outcome(ended, files_in(folder), received)
