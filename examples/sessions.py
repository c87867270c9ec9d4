"""The program in a folder, and its honest sessions, for the scripts that speak to it as a peer. Those are in Python,
which the toolchain's commands need too, since bash can't listen at a port."""

import collections
import contextlib
import multiprocessing
import os
import pathlib
import random
import re
import resource
import shutil
import socket
import subprocess
import tempfile
import threading
import time

# How long one thing may take, on a machine that does much else.
SECONDS = 60
BUILT = pathlib.Path(__file__).resolve().parent.parent / "crates" / "sporc" / "out" / "sporc"
# So few descriptors that a process has used them up soon.
DESCRIPTORS = 64


def new_folder(within=None):
    """A folder that is removed at the end: within another, or in memory if the machine has such a place, so that nothing waits
    for a disk."""
    memory = "/dev/shm"
    return tempfile.TemporaryDirectory(dir=within or (memory if os.access(memory, os.W_OK) else None))


# The processes that this script has begun.
begun = []


def begin(words, **options):
    """A process that does not outlive this script."""
    process = subprocess.Popen(words, encoding="utf-8", **options)
    begun.append(process)
    return process


def end_all():
    """Ends what has not ended by itself."""
    for process in [*begun, *multiprocessing.active_children()]:
        process.kill()


@contextlib.contextmanager
def limited(script, seconds):
    """A folder for a script, which gives up once so many seconds are over. Nothing that it has begun outlives it."""

    def give_up():
        print(f"{script}: more than {seconds} seconds", flush=True)
        end_all()
        shutil.rmtree(folder, ignore_errors=True)
        os._exit(1)

    limit = threading.Timer(seconds, give_up)
    limit.daemon = True
    with new_folder() as folder:
        limit.start()
        try:
            yield folder
        finally:
            end_all()


class Checks:
    """What a script looks at, in whatever threads: what holds, and what doesn't, which is told at once."""

    def __init__(self, script):
        self.script, self.passed, self.failed = script, [], []

    def holds(self, what, does):
        """Whether this holds is seen."""
        if does:
            self.passed.append(what)
        else:
            self.failed.append(what)
            print(f"{self.script}: not {what}\n", end="", flush=True)

    def end(self, *more):
        """Tells how many there were, and more of them, and ends the script."""
        print(f"{self.script}: {', '.join([f'{len(self.passed)} passed, {len(self.failed)} failed', *more])}")
        raise SystemExit(1 if self.failed else 0)


def few_descriptors():
    """What a process does before it begins, to have few descriptors."""
    resource.setrlimit(resource.RLIMIT_NOFILE, (DESCRIPTORS, DESCRIPTORS))


def can_trace():
    """Whether strace is here and may trace."""
    tool = shutil.which("strace")
    return bool(tool) and subprocess.run([tool, "-o", "/dev/null", "true"], capture_output=True).returncode == 0


# The addresses that were given last. One is looked for at a time.
given = collections.deque(maxlen=1_000)
looking = threading.Lock()


def free_address():
    """An address of this machine whose port nobody has, and that was not given lately. Its port is none that the system takes
    for the near end of a connection. No port is tried: a program that another thread starts meanwhile would have it for a
    moment longer, and at one that was given a server may be about to listen."""
    with looking:
        sockets = pathlib.Path("/proc/net/tcp").read_text().splitlines()[1:]
        taken = {int(line.split()[1].partition(":")[2], 16) for line in sockets}
        while True:
            port = random.randrange(20_000, 30_000)
            if port not in taken and port not in given:
                given.append(port)
                return f"127.0.0.1:{port}"


def listens(address):
    """Whether somebody listens at an address of this machine."""
    port = int(address.split(":")[1])
    return re.search(f":{port:04X} 0+:0000 0A", pathlib.Path("/proc/net/tcp").read_text()) is not None


def call(address, *said):
    """The connection of a peer that comes to a server and says this."""
    host, port = address.split(":")
    link = socket.create_connection((host, int(port)), timeout=SECONDS)
    for piece in said:
        link.sendall(piece)
    return link


def ended(process, seconds=None):
    """The status of a process and its last line, once it has ended."""
    try:
        out = process.communicate(timeout=seconds or SECONDS)[0] or ""
    except subprocess.TimeoutExpired:
        process.kill()
        return None, "no end"
    lines = out.splitlines()
    return process.returncode, lines[-1] if lines else ""


def counted(data):
    """A length, and so many bytes."""
    return len(data).to_bytes(4, "big") + data


def saved(data):
    """The entries of a saved history that is whole."""
    entries, at = [], 24
    while at < len(data):
        length = int.from_bytes(data[at : at + 4], "big")
        entries.append(data[at + 4 : at + 4 + length])
        at += 4 + length
    return entries


def history(document, entries):
    """The saved history of these entries."""
    count = len(entries).to_bytes(4, "big")
    return b"SPH1" + document + count + b"".join(counted(entry) for entry in entries)


def tail(document, first, entries):
    """The tail of a log with these entries, of which the first has this position."""
    records = [position.to_bytes(4, "big") + counted(entry) for position, entry in enumerate(entries, first)]
    return b"SPT1" + document + b"".join(records)


def frames(data):
    """The bodies of the frames that are whole."""
    at, bodies = 0, []
    while len(data) - at >= 4 and len(data) - at >= 4 + int.from_bytes(data[at : at + 4], "big"):
        length = int.from_bytes(data[at : at + 4], "big")
        bodies.append(bytes(data[at + 4 : at + 4 + length]))
        at += 4 + length
    return bodies


def handed_out(body):
    """The entries of an answer to a Pull, by their positions."""
    if body[:1] != b"\3":
        return {}
    entries, at = {}, 6
    for position in range(int.from_bytes(body[1:5], "big"), int.from_bytes(body[1:5], "big") + body[5]):
        length = int.from_bytes(body[at : at + 4], "big")
        entries[position] = body[at + 4 : at + 4 + length]
        at += 4 + length
    return entries


def received(link, size):
    """So many bytes of a link, or fewer if it ends before."""
    data = b""
    while len(data) < size and (piece := link.recv(min(size - len(data), 65_536))):
        data += piece
    return data


def next_body(link):
    """The body of the next frame of a link, or nothing if it ends before."""
    head = received(link, 4)
    length = int.from_bytes(head, "big")
    body = received(link, length) if len(head) == 4 else b""
    return body if len(body) == length else b""


def answer(link):
    """The body of the next frame, which comes."""
    body = next_body(link)
    if not body:
        raise EOFError("no whole frame")
    return body


def hello(document):
    """A Hello of member 1."""
    return counted(b"\1" + document + b"\0\1")


def pull(length):
    """A Pull of all behind so many entries."""
    return counted(b"\3" + length.to_bytes(4, "big"))


def pulled(address, document):
    """All entries of a server, as a peer gets them."""
    entries = []
    with call(address, hello(document)) as link:
        while True:
            link.sendall(pull(len(entries)))
            more = handed_out(answer(link))
            if not more:
                return entries
            entries += more.values()


class Program:
    """The built program, run in a folder."""

    def __init__(self, path, folder):
        self.path = str(pathlib.Path(path).resolve())
        self.folder = pathlib.Path(folder)

    def run(self, *words, timeout=SECONDS):
        """Its status, its last line, and what stands on standard error."""
        done = subprocess.run([self.path, *words], cwd=self.folder, capture_output=True, timeout=timeout)
        lines = done.stdout.decode().splitlines()
        return done.returncode, lines[-1] if lines else "", done.stderr.decode()

    def done(self, *words):
        """The last line of a run that ends well."""
        status, last, errors = self.run(*words)
        assert (status, errors) == (0, ""), f"{words}: {status} {last} {errors}"
        return last

    def serve(self, name, sessions, **options):
        """A server, once it listens, and its address. If it ends before, an EOFError with its status and its lines."""
        address = free_address()
        return self.start(address, ["serve", name, address, "--sessions", str(sessions)], **options), address

    def start(self, address, words, before=(), **options):
        """The same of these words, behind those of a program that runs it."""
        words = [*before, self.path, *words]
        server = begin(words, cwd=self.folder, stdout=subprocess.PIPE, **options)
        # Its sessions are counted, so nobody calls it to find out whether it listens.
        while not listens(address):
            if server.poll() is not None:
                raise EOFError(server.returncode, server.stdout.read().splitlines(keepends=True))
            time.sleep(0.002)
        return server

    def found(self, name, *members):
        """A document of members with keys of height 5, and their public keys."""
        keys = [self.done("keygen", name, member.split(":")[0], "5", "4").split()[1] for member in members]
        self.done("found", name, *members)
        return keys

    def document(self, name):
        """The sixteen bytes that a document is known by."""
        return (self.folder / f"{name}.genesis").read_bytes()[1:17]

    def greeting(self, name):
        """A Hello for a document, and a Pull, which is answered."""
        return hello(self.document(name)) + pull(0)

    def write(self, name, member, script, before, is_joiner=False):
        """The entries that a session of a member with this editor script saves, whose server has those of `before`."""
        (self.folder / "script").write_text(script)
        (self.folder / f"{name}.log").write_bytes(history(self.document(name), before))
        saved_by = self.folder / f"{name}.{member}.history"
        saved_by.unlink(missing_ok=True)
        server, address = self.serve(name, 4 if is_joiner else 1)
        if is_joiner:
            # It has two sessions in each run, and reads its addition before it edits.
            self.done("client", name, member, address)
        self.done("client", name, member, address, "script")
        assert server.wait(SECONDS) == 0
        return saved(saved_by.read_bytes())
