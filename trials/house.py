"""Relays in folders of their own, for the trials: standard library alone, and loopback alone."""
import contextlib, os, re, shutil, signal, socket, subprocess, tempfile, time
from client import HOST, Client, chunk_id, message, stored, take

TAG = "app.x"
# Connections come from HOST: so none of them takes the port of a relay here that is down.
OTHER = "127.0.0.2"
# What a relay says, behind the time.
LINE = re.compile(r"^\d{4}-\d\d-\d\dT\d\d:\d\d:\d\dZ (.+)$")


def section(name, lines, argument=""):
    """A section, with its lines set in."""
    inner = ["  " + line for text in lines for line in text.splitlines()]
    return "\n".join(["<%s>" % " ".join([name, argument]).strip(), *inner, "</%s>" % name]) + "\n"


def security(name, key):
    return section("security", ["self_hostname " + name, "shared_key " + key])


def source(port, *more, host=HOST):
    return section("source", ["@type forward", "bind " + host, "port %d" % port, *more])


def buffer(path, *more):
    """A buffer in files that keeps all, or one in memory where there is no path. Of lines the last counts."""
    kind = ["@type file", "path " + path] if path else ["@type memory"]
    usual = ["retry_forever true", "retry_wait 1", "retry_max_interval 1", "flush_mode immediate"]
    return section("buffer", [*kind, *usual, *more])


def to_file(path, kept):
    return ["@type file", "path " + path, kept]


def to_servers(addresses, kept, *more):
    servers = [section("server", ["host " + host, "port %d" % port]) for host, port in addresses]
    usual = ["require_ack_response true", "ack_response_timeout 10"]
    return ["@type forward", *usual, *servers, kept, *more]


def copy(*outputs):
    return ["@type copy", *[section("store", output) for output in outputs]]


def match(pattern, output):
    return section("match", output, pattern)


def label(name, *matches):
    return section("label", matches, name)


def hub_conf(port, *its, kept=(), host=HOST, pattern="app.**"):
    """A relay that stores events, with these lines in its source and its buffer."""
    return source(port, *its, host=host) + match(pattern, to_file("all", buffer("store", *kept)))


def edge_conf(port, servers, *its, more=()):
    """A relay that forwards events to these, with these lines in its source and its output."""
    return source(port, *its) + match("app.**", to_servers(servers, buffer("out"), *more))


# The sockets that keep the ports that were given.
held_ports = []


def free_port(host=HOST):
    """A port for a relay. It stays bound here, to the end: so no other process, no other relay and no
    connection gets it before the relay, or while that is down. The relay binds it all the same, since both
    sockets have SO_REUSEADDR and this one doesn't listen; a client is refused until it does."""
    held = socket.socket()
    held.setsockopt(socket.SOL_SOCKET, socket.SO_REUSEADDR, 1)
    held.bind((host, 0))
    held_ports.append(held)
    return held.getsockname()[1]


def away(host=HOST):
    """An address where nothing listens, and what keeps it so."""
    held = socket.socket()
    held.bind((host, 0))
    return (host, held.getsockname()[1]), held


def stored_in(path):
    """The events that stand whole in a sink's file, as (tag, entry) in bytes."""
    with open(path, "rb") as file:
        data = file.read()
    found, at = [], 0
    while at < len(data):
        assert data[at] == 0x93, "a sink's message of other than three parts"
        try:
            tag, begin = take(data, at + 1)
            _, middle = take(data, begin)
            _, at = take(data, middle)
        except IndexError:
            break
        found.append((tag, b"\x92" + data[begin:at]))
    return found


class Relay:
    """One relay: its program, configuration, number and folder."""

    def __init__(self, program, room, name, number, conf):
        self.program, self.number = program, number
        self.conf = os.path.join(room, name + ".conf")
        self.folder = os.path.join(room, name)
        self.said = os.path.join(room, name + ".out")
        with open(self.conf, "w") as text:
            text.write(conf)
        self.process = self.environment = None

    def start(self, wait=60.0, is_limited=False):
        """Starts it, and waits until it is ready. Where its files are limited later, a write past the limit
        is an error and no signal."""
        words = [self.program, "relay", self.conf, str(self.number), self.folder]
        with open(self.said, "w") as out, open(self.said + ".err", "a") as err:
            outputs = {"stdout": out, "stderr": err}
            outputs["env"] = self.environment
            self.process = subprocess.Popen(words, **outputs, restore_signals=not is_limited)
        until = time.monotonic() + wait
        while time.monotonic() < until:
            if self.lines() and self.lines()[0].startswith("ready "):
                return True
            if self.process.poll() is not None:
                return False
            time.sleep(0.005)
        return False

    def run(self, folder=None):
        """Runs it to its end: its status, and what it prints."""
        words = [self.program, "relay", self.conf, str(self.number), folder or self.folder]
        with open(self.said + ".err", "a") as err:
            outputs = {"stdout": subprocess.PIPE, "stderr": err}
            ran = subprocess.run(words, **outputs, text=True, timeout=60)
        return ran.returncode, ran.stdout

    def ended(self, wait=60):
        """Its status, once it has ended by itself."""
        try:
            return self.process.wait(wait)
        except subprocess.TimeoutExpired:
            return None

    def lines(self):
        with open(self.said) as text:
            return text.read().splitlines()

    def printed(self):
        """All that it wrote on both outputs."""
        with open(self.said + ".err") as text:
            return "\n".join(self.lines()) + text.read()

    def resident(self):
        """How many bytes of memory it has."""
        with open("/proc/%d/status" % self.process.pid) as status:
            return next(int(line.split()[1]) * 1024 for line in status if line.startswith("VmRSS:"))

    def kill(self):
        if self.process is not None:
            self.process.kill()
            self.process.wait()
            self.process = None

    @contextlib.contextmanager
    def paused(self):
        """Holds it where it is, with its sockets and its lock, so that it changes nothing meanwhile."""
        self.process.send_signal(signal.SIGSTOP)
        os.waitpid(self.process.pid, os.WUNTRACED)
        try:
            yield
        finally:
            self.process.send_signal(signal.SIGCONT)

    def sink_files(self, path=None):
        """The paths of its sinks' files, or of those of one sink, in their order."""
        names = sorted(name for name in os.listdir(self.folder) if name.endswith(".sink"))
        its = [name for name in names if path in (None, name.split(".")[0])]
        return [os.path.join(self.folder, name) for name in its]

    def sink(self, path="all"):
        """The events of a sink, as (tag, entry) in bytes."""
        return [event for file in self.sink_files(path) for event in stored_in(file)]


def becomes(holds, wait=60.0):
    """Whether this comes to hold."""
    until = time.monotonic() + wait
    while not holds():
        if time.monotonic() > until:
            return False
        time.sleep(0.05)
    return True


def comes(relay, wanted, path="all", wait=60.0):
    """Whether these events come to stand in the relay's sink."""
    return becomes(lambda: set(wanted) <= set(relay.sink(path)), wait)


def told(text):
    """What is said in this text, a line each, without the times; a line that has none is marked."""
    found = [(line, LINE.match(line)) for line in text.splitlines()]
    return [line.group(1) if line else "no line: " + whole for whole, line in found]


def said(relay):
    """What a relay said."""
    with open(relay.said + ".err") as text:
        return told(text.read())


def says(relay, line, wait=60.0):
    """Whether it comes to say this line."""
    return becomes(lambda: line in said(relay), wait)


def begins_to_say(relay, text, wait=60.0):
    """Whether it comes to say a line that begins so: how often it was left out may stand behind."""
    return becomes(lambda: any(line.startswith(text) for line in said(relay)), wait)


def sends(port, n, tag=TAG, key=None, host=HOST, wait=30.0):
    """Whether event N is acknowledged that a client sends there."""
    try:
        client = Client(port, wait=wait, host=host)
        if key is not None and not client.shake(b"client", key.encode()):
            return False
        chunk = chunk_id()
        client.send(message("message", tag, [n], chunk))
        return client.acknowledged(chunk)
    except (OSError, TimeoutError):
        return False


def event(n, tag=TAG):
    """Event N as sinks have it."""
    return tag.encode(), stored(n)


class Report:
    """Prints `ok NAME` or `failed NAME` for each case."""

    def __init__(self):
        self.failed = 0

    def case(self, name, holds, why=""):
        self.failed += not holds
        # In one piece, as several trials print at once.
        print("%s %s %s\n" % ("ok" if holds else "failed", name, "" if holds else why), end="", flush=True)

    def run(self, trial, room):
        """A trial with its cases, of which the last is that it doesn't break off."""
        try:
            trial(room)
        except Exception as fault:
            self.case(trial.__name__ + " breaks off", False, repr(fault))


class Room:
    """A folder for one trial, in this one or where temporary files are, and the relays in it, which end with it."""

    open = set()

    def __init__(self, program, name="trial", is_kept=False, folder=None):
        self.program, self.is_kept = os.path.abspath(program), is_kept
        self.path = tempfile.mkdtemp(prefix=name + "_", dir=folder)
        self.relays = []

    def relay(self, name, number, conf):
        made = Relay(self.program, self.path, name, number, conf)
        self.relays.append(made)
        return made

    def __enter__(self):
        Room.open.add(self)
        return self

    def __exit__(self, *_):
        for relay in list(self.relays):
            relay.kill()
        if not self.is_kept:
            shutil.rmtree(self.path, ignore_errors=True)
        Room.open.discard(self)


def end_all(*_):
    for room in list(Room.open):
        room.__exit__()
    os._exit(1)


signal.signal(signal.SIGTERM, end_all)
