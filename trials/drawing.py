"""Random networks of relays, and where events go in them, by docs/CONFIGURATION.md and not by the program."""
import random
from client import binary, chunk_id, event_time, number, spelled, table, text
from house import away, buffer, copy, label, match, security, source, to_file, to_servers

WORDS = ["a", "b", "c"]
PREFIXES = [None, None, "a", "b.c", "site-1"]
KEYS = [None, None, "one key", "another key"]
MODES = ["message", "forward", "packed", "packed_bin"]
TYPES = {"file": 4, "forward": 4, "relabel": 3, "null": 1}
MORE = [[], [("more", b"\x93\x01\xc0\xcb" + bytes(8))], [("bin", b"\xc4\x02\x00\xff"), ("wide", b"\xd9\x01x")]]


class Source:
    """Where a relay listens, and what becomes of what comes in there."""

    def __init__(self, draw, relay, address, scope):
        self.relay, self.address, self.scope = relay, address, scope
        self.prefix, self.key = draw.choice(PREFIXES), draw.choice(KEYS)

    def enter(self, tag):
        return tag if self.prefix is None else self.prefix + "." + tag

    def text(self):
        more = ["@label " + self.scope] if self.scope else []
        more += ["add_tag_prefix " + self.prefix] if self.prefix else []
        more += [security(self.relay.name, self.key)] if self.key else []
        return source(self.address[1], *more, host=self.address[0])


class Nobody:
    """An address where nobody listens."""

    def __init__(self, address):
        self.address = address


class Output:
    """One output: its type, and the sink, the servers or the label that it names."""

    def __init__(self, kind, path=None, servers=(), scope=None, kept=None, asks=True):
        self.kind, self.path, self.servers, self.scope = kind, path, servers, scope
        self.kept, self.asks = kept, asks

    def lines(self):
        if self.kind == "null":
            return ["@type null"]
        if self.kind == "relabel":
            return ["@type relabel", "@label " + self.scope]
        kept = buffer(*self.kept)
        if self.kind == "file":
            return to_file(self.path, kept)
        more = ["ack_response_timeout 2", "require_ack_response " + str(self.asks).lower()]
        more += [security("sender", key) for key in {server.key for server in self.targets()} if key]
        return to_servers([server.address for server in self.servers], kept, *more)

    def targets(self):
        """The sources among its servers; at the others nobody is."""
        return [server for server in self.servers if isinstance(server, Source)]

    def is_in_memory(self):
        return self.kept[0] is None


class Match:
    def __init__(self, patterns, outputs, is_copy):
        self.patterns, self.outputs, self.is_copy = patterns, outputs, is_copy

    def takes(self, tag):
        plain = [each for pattern in self.patterns for each in multiplied(pattern)]
        return any(fits(each, tag.split(".")) for each in plain)

    def text(self):
        outputs = [output.lines() for output in self.outputs]
        return match(" ".join(self.patterns), copy(*outputs) if self.is_copy else outputs[0])


def multiplied(pattern):
    """A pattern without groups for each choice of their alternatives, as lists of parts."""
    before, brace, rest = pattern.partition("{")
    if not brace:
        return [pattern.split(".")]
    choices, _, behind = rest.partition("}")
    texts = [before + choice + behind for choice in choices.split(",")]
    return [plain for text in texts for plain in multiplied(text)]


def fits(plain, parts):
    """Whether these parts are of a pattern without groups."""
    if not plain:
        return not parts
    if plain[0] == "**":
        return any(fits(plain[1:], parts[n:]) for n in range(len(parts) + 1))
    return bool(parts) and plain[0] in ("*", parts[0]) and fits(plain[1:], parts[1:])


class RelayDrawn:
    """A relay: its sources, and the matches of each scope, of which the top level is None."""

    def __init__(self, name, number):
        self.name, self.number = name, number
        self.sources, self.scopes = [], {}
        self.is_killed = False

    def text(self):
        texts = [each.text() for each in self.sources]
        for scope, matches in self.scopes.items():
            inner = [each.text() for each in matches]
            texts += [label(scope, *inner)] if scope else inner
        return "".join(texts)

    def ends(self, scope, tag, above=()):
        """The outputs with buffers that an event reaches from this scope; None where its way is a loop."""
        if scope in above:
            return None
        taker = next((each for each in self.scopes[scope] if each.takes(tag)), None)
        found = []
        for output in taker.outputs if taker else []:
            if output.kind in ("file", "forward"):
                found.append(output)
            elif output.kind == "relabel":
                more = self.ends(output.scope, tag, (*above, scope))
                if more is None:
                    return None
                found += more
        return found


class Message:
    """Some events under one tag, as they are sent, and the chunk whose answer is asked for."""

    def __init__(self, draw, first):
        self.tag = ".".join(draw.choice(WORDS) for _ in range(draw.randint(1, 3)))
        if draw.random() < 0.05:
            self.tag = draw.choice(["", "a..b", "b."])
        mode = draw.choice(MODES)
        count = 1 if mode == "message" else draw.choice([0, 1, 1, 2, 3])
        events = [self.event(draw, first + n) for n in range(count)]
        self.entries = [b"\x92" + time + fields for time, fields in events]
        self.chunk = chunk_id() if draw.random() < 0.85 else None
        item = lambda words: text(words) if draw.random() < 0.8 else binary(words.encode())
        self.data = spelled(mode, item(self.tag), events, self.chunk and item(self.chunk))

    def event(self, draw, n):
        times = [number(n), number(2**31 + n), number(2**33 + n)]
        times += [event_time(n, draw.randrange(10**9)) for _ in range(3)]
        return draw.choice(times), table([("n", text(str(n)))] + draw.choice(MORE))

    def is_answered(self, at):
        """Whether the relay of this source is to answer it."""
        return self.chunk is not None and self.ways(at) is not None

    def ways(self, at):
        return [] if not self.entries else at.relay.ends(at.scope, at.enter(self.tag))


class Network:
    """Some relays, each of which forwards to later ones alone."""

    def __init__(self, seed):
        self.draw = random.Random(seed)
        self.has_kills = seed % 3 == 0
        self.hosts = [self.host(), self.host()]
        self.held, self.gone, self.paths = [], [], 0
        self.limit = self.draw.choice([[], ["chunk_limit_size 600"]])
        self.relays = [self.relay(place) for place in range(self.draw.randint(2, 4))]
        for place, relay in enumerate(self.relays):
            later = [each for other in self.relays[place + 1 :] for each in other.sources]
            self.fill(relay, later)

    def host(self):
        return "127.%d.%d.%d" % tuple(self.draw.randint(1, 250) for _ in range(3))

    def relay(self, place):
        """A relay with its sources and its scopes, in which no matches are yet."""
        made = RelayDrawn("relay_%d" % place, self.draw.choice([place, 2**32 - 1 - place]))
        made.scopes = {scope: [] for scope in (None, "@L0", "@L1", "@L2")[: self.draw.randint(1, 4)]}
        for _ in range(self.draw.randint(1, 3)):
            scope = self.draw.choice(list(made.scopes))
            made.sources.append(Source(self.draw, made, self.address(self.held), scope))
        return made

    def address(self, kept):
        found, held = away(self.draw.choice(self.hosts))
        kept.append(held)
        return found

    def release(self):
        """Lets go the ports of the relays; those where nobody listens stay held to the end."""
        for held in self.held:
            held.close()

    def end(self):
        for held in self.gone:
            held.close()

    def fill(self, relay, later):
        """Draws the matches of each scope."""
        for scope, matches in relay.scopes.items():
            for _ in range(self.draw.randint(1, 3)):
                patterns = [self.pattern() for _ in range(self.draw.randint(1, 2))]
                stores = self.draw.choice([0, 0, 0, 1, 2, 3])
                outputs = [self.output(relay, scope, later) for _ in range(stores or 1)]
                matches.append(Match(patterns, outputs, stores > 0))
            if self.draw.random() < 0.7:
                matches.append(Match(["**"], [self.output(relay, scope, later)], False))

    def pattern(self):
        parts = self.draw.choices(WORDS + ["*", "**", "{a,b}", "{b,a.c}"], k=self.draw.randint(1, 2))
        return ".".join(parts + self.draw.choice([[], ["**"]]))

    def output(self, relay, scope, later):
        """An output of a random type. Relabels go to later labels mostly, so that few ways are loops."""
        is_back = self.draw.random() < 0.15
        labels = [name for name in relay.scopes if name and (is_back or name > (scope or ""))]
        kinds = {"forward": later, "relabel": labels, "file": True, "null": True}
        kind = self.draw.choice([kind for kind, needs in kinds.items() if needs for _ in range(TYPES[kind])])
        if kind == "null":
            return Output(kind)
        if kind == "relabel":
            return Output(kind, scope=self.draw.choice(labels))
        self.paths += 1
        kept = self.kept("b%d" % self.paths)
        if kind == "file":
            return Output(kind, path="s%d" % self.paths, kept=kept)
        asks = self.draw.random() < 0.85
        return Output(kind, servers=self.servers(later), kept=kept, asks=asks)

    def kept(self, path):
        flush = self.draw.choice([[], ["flush_mode interval", "flush_interval 1"]])
        threads = ["flush_thread_count %d" % self.draw.randint(1, 3)]
        return (path if self.draw.random() < 0.7 else None, *flush, *threads, *self.limit)

    def servers(self, later):
        """One or two sources that ask for one key, among addresses where nobody is."""
        first = self.draw.choice(later)
        others = [each for each in later if each.key == first.key and each is not first]
        found = [first, *self.draw.sample(others, min(len(others), self.draw.choice([0, 0, 1])))]
        absent = self.draw.choice([0, 1, 1, 3 - len(found)])
        found += [Nobody(self.address(self.gone)) for _ in range(absent)]
        self.draw.shuffle(found)
        return found

    def may_come(self, at, tag):
        """The sinks, as relay, path and tag, that an event with this tag may come to from this source."""
        entered = at.enter(tag)
        found = set()
        for output in at.relay.ends(at.scope, entered) or []:
            if output.kind == "file":
                found.add((at.relay.name, output.path, entered))
            for target in output.targets():
                found |= self.may_come(target, entered)
        return found

    def is_kept(self, at, tag, has):
        """Whether an event that was answered there stands in each sink that it has to come to, where `has`
        says in which it stands. A server at which its way is a loop never answers."""
        entered = at.enter(tag)
        ends = at.relay.ends(at.scope, entered)
        return ends is None or all(self.ends_well(at.relay, output, entered, has) for output in ends)

    def ends_well(self, relay, output, tag, has):
        """The same of one output. A buffer in memory of a relay that was killed may lose it. Where some
        relay was killed, what asks for no acknowledgement may, and a later server may have it in place of
        the first that there is."""
        if relay.is_killed and output.is_in_memory() or self.has_kills and not output.asks:
            return True
        if output.kind == "file":
            return has((relay.name, output.path, tag))
        targets = output.targets() if self.has_kills else output.targets()[:1]
        return any(self.is_kept(target, tag, has) for target in targets)
