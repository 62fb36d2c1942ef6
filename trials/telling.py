"""What was noted of a run of relays, told as the steps of docs/CHECKING.md: standard library
alone.

Nothing is judged here but what the steps can't say: where what was noted isn't what was told
before, that is a fault. Whether the steps are allowed, `relaynet replay` says.
"""
import base64, binascii, struct
from noted import APPEND, PURGE, QUEUE, SEAL
from noted import ACCEPTED, CAME, CLOSES, CONNECTED, GOES, NAME, OPENED, STARTED, SYNCS
from noted import Message, ends_of, events_in, is_array, records_in, values_in


# So many messages were read at most before the records of the first of them are written: those of
# one turn of a relay's loop.
MOST_UNWRITTEN = 2000


class Chunk:
    def __init__(self, tag, stage="staged"):
        self.tag, self.entries, self.stage = tag, [], stage

    def events(self):
        return [(self.tag, entry) for entry in self.entries]

    def is_as(self, other):
        stages = [each.stage == "staged" for each in (self, other)]
        return self.events() == other.events() and stages[0] == stages[1]


class Buffer:
    """A buffer as it was told: its place in the configuration, its output, and its live chunks."""

    def __init__(self, relay, place, output):
        self.relay, self.place, self.output = relay, place, output
        self.chunks, self.next = {}, 0

    def name(self, serial):
        return "%d/%d/%d" % (self.relay.number, self.place, serial)


class Journal:
    """A generation of a buffer's journal: what it tells before its Seal, and how far it was
    written and synced."""

    def __init__(self, buffer):
        self.buffer, self.rest = buffer, b""
        self.chunks, self.is_sealed = {}, False
        self.size, self.syncs = 0, []


class Sink:
    """A file of a sink: what was written to it since its last sync, by which thread."""

    def __init__(self, buffer):
        self.buffer, self.thread = buffer, None
        self.written = b""


class Delivery:
    """A message at a relay, with the places of its appends in journals."""

    def __init__(self, message, number, tag, source):
        self.message, self.number, self.tag, self.source = message, number, tag, source
        self.place, self.is_open = None, True
        self.appends = {}


class Coming:
    """A connection that a relay took, from a courier of another, or from a client."""

    def __init__(self, here, other):
        self.port, self.ends = here[1], (other, here)
        self.courier = None
        self.read = self.sent = b""
        self.deliveries, self.taken = [], 0


class Going:
    """A connection that a relay made: the message that it carries, once that is told, and whether
    it was answered."""

    def __init__(self, server):
        self.server = server
        self.read = self.sent = b""
        self.chunk, self.messages, self.is_seen = None, [], False


class Told:
    """A relay as it was told."""

    def __init__(self, planned):
        self.number, self.prefixes = planned.number, planned.prefixes
        self.buffers = [Buffer(self, at, output) for at, output in enumerate(planned.outputs)]
        self.lives = 0
        self.begin()

    def begin(self):
        """What a process begins with."""
        self.files, self.unwritten, self.stored = {}, [], {}

    def buffer_of(self, path, is_journal):
        has = lambda output: output.path if is_journal else output.is_file and output.sink
        return next(each for each in self.buffers if has(each.output) == path)


class Telling:
    """Notes of all relays in the order of their moments, told as lines. `faults` has what was
    noted and can't be."""

    def __init__(self, plan):
        self.plan = plan
        self.relays = {name: Told(planned) for name, planned in plan.relays.items()}
        self.lines, self.faults, self.couriers = [], [], {}
        self.messages = self.deliveries = 0
        self.stored = {}

    def tell(self, words, *values):
        self.lines.append(words % values)

    def fault(self, words, *values):
        self.faults.append(words % values)

    def take_all(self, notes):
        does = {STARTED: self.started, OPENED: self.opened, CLOSES: self.closes}
        does.update({CONNECTED: self.connected, ACCEPTED: self.accepted})
        does.update({CAME: self.came, GOES: self.goes, SYNCS: self.syncs})
        for note in notes:
            before = len(self.lines)
            does[note.call](self.relays[note.life.relay], note)
            note.told = self.lines[before:]
        for relay in self.relays.values():
            self.end_sinks(relay)

    # A relay's start, and its files

    def started(self, relay, note):
        """A process begins: what the one before it had open has ended with it."""
        relay.lives += 1
        if relay.lives == 1:
            return
        self.end_sinks(relay)
        self.tell("restart %d", relay.number)
        for each in list(relay.files.values()):
            for delivery in each.deliveries if isinstance(each, Coming) else []:
                delivery.is_open = False
        for buffer in relay.buffers:
            for chunk in buffer.chunks.values():
                chunk.stage = "queued" if chunk.stage == "claimed" else chunk.stage
        relay.begin()

    def opened(self, relay, note):
        path, _, kind = NAME.match(note.life.name_of(note.data)).groups()
        buffer = relay.buffer_of(path, kind == "journal")
        relay.files[note.file] = Journal(buffer) if kind == "journal" else Sink(buffer)

    def goes(self, relay, note):
        to = relay.files.get(note.file)
        if isinstance(to, Journal):
            to.size += len(note.gone())
            records, to.rest = records_in(to.rest + note.gone())
            for record in records:
                self.record(relay, note, to, *record)
        elif isinstance(to, Sink):
            to.written, to.thread = to.written + note.gone(), note.thread
        elif isinstance(to, Coming):
            self.answers(relay, note, to)
        elif isinstance(to, Going):
            self.forwards(relay, to, note.gone())

    def syncs(self, relay, note):
        """A sync: what was written before it is synced once it has returned."""
        of = relay.files.get(note.file)
        if isinstance(of, Journal) and note.result == 0:
            of.syncs.append((note.back, of.size))
        elif isinstance(of, Sink) and note.result == 0 and of.written:
            relay.stored[note.thread] = of.buffer, events_in(of.written)
            of.written = b""

    # The records of a journal

    def record(self, relay, note, journal, kind, serial, tag, entries):
        if not journal.is_sealed:
            self.told_before(journal, kind, serial, tag, entries)
        elif kind == APPEND:
            self.append(relay, note, journal, serial, tag, entries)
        elif kind == QUEUE:
            self.tell("enqueue %s", journal.buffer.name(serial))
            self.set_stage(journal.buffer, serial, "queued")
        elif kind == PURGE:
            self.purge(relay, note, journal.buffer, serial)

    def told_before(self, journal, kind, serial, tag, entries):
        """What a generation begins with is what its buffer has by then."""
        buffer, chunks = journal.buffer, journal.chunks
        if kind == APPEND:
            chunks.setdefault(serial, Chunk(tag)).entries += entries
        elif kind == QUEUE:
            chunks[serial].stage = "queued"
        elif kind == SEAL:
            journal.is_sealed = True
            has = buffer.chunks
            is_kept = lambda n: n in has and n in chunks and chunks[n].is_as(has[n])
            other = sorted(n for n in has.keys() | chunks.keys() if not is_kept(n))
            if other or serial != buffer.next:
                name = buffer.name(serial)
                self.fault("a generation before %s doesn't begin as told: %r", name, other)

    def set_stage(self, buffer, serial, stage):
        if serial in buffer.chunks:
            buffer.chunks[serial].stage = stage

    def append(self, relay, note, journal, serial, tag, entries):
        buffer = journal.buffer
        has = lambda each: each.tag == tag and each.message.entries == entries
        is_its = lambda each: has(each) and each.is_open and buffer.place not in each.appends
        each = next(filter(is_its, relay.unwritten), None)
        if each is None:
            self.fault("an append to %s of no message that was read", buffer.name(serial))
            return
        self.begin(each)
        self.tell("append %d %d %d", each.place, buffer.place, serial)
        each.appends[buffer.place] = journal, journal.size
        buffer.chunks.setdefault(serial, Chunk(tag)).entries += entries
        buffer.next = max(buffer.next, serial + 1)

    def begin(self, delivery):
        if delivery.place is None:
            self.tell("begin %d", delivery.number)
            delivery.place = self.deliveries
            self.deliveries += 1

    def claim(self, buffer, serial):
        """A claim isn't seen: it is told with the first of what shows it."""
        if serial not in buffer.chunks or buffer.chunks[serial].stage != "claimed":
            self.tell("claim %s", buffer.name(serial))
            self.set_stage(buffer, serial, "claimed")

    def purge(self, relay, note, buffer, serial):
        """A chunk goes. What its thread synced into a sink before is told here, where it's seen
        which chunk that was."""
        self.claim(buffer, serial)
        written, events = relay.stored.pop(note.thread, (None, []))
        if written is buffer:
            self.write(relay, buffer, serial, events)
        is_sent = not buffer.output.is_file and not buffer.output.asks
        self.tell("done %s" if is_sent else "purge %s", buffer.name(serial))
        buffer.chunks.pop(serial, None)

    # Sinks

    def write(self, relay, buffer, serial, events):
        chunk = buffer.chunks.get(serial)
        if chunk is None or chunk.events()[: len(events)] != events:
            self.fault("what was written to a sink isn't of chunk %s", buffer.name(serial))
        elif len(events) == len(chunk.entries):
            self.tell("write %s", buffer.name(serial))
        else:
            self.tell("part %s %d", buffer.name(serial), len(events))
        self.stored.setdefault((relay.number, buffer.output.sink), []).extend(events)

    def end_sinks(self, relay):
        """What a process wrote to sinks before its end, and no purge followed: it's of a chunk
        that has it."""
        left = list(relay.stored.values())
        sinks = [each for each in relay.files.values() if isinstance(each, Sink)]
        left += [(each.buffer, events_in(each.written)) for each in sinks]
        for buffer, events in left:
            if not events:
                continue
            has = lambda chunk: chunk.stage != "staged" and chunk.events()[: len(events)] == events
            found = [serial for serial, chunk in sorted(buffer.chunks.items()) if has(chunk)]
            if not found:
                self.fault("what was written to a sink of relay %d is of no chunk", relay.number)
                continue
            self.claim(buffer, found[0])
            self.write(relay, buffer, found[0], events)

    # Connections that came

    def accepted(self, relay, note):
        relay.files[note.file] = Coming(*ends_of(note.data))

    def came(self, relay, note):
        by = relay.files.get(note.file)
        values, by.read = values_in(by.read + note.data)
        if isinstance(by, Going):
            self.hears(by, [value for value, _ in values])
            return
        relay.unwritten = [each for each in relay.unwritten[-MOST_UNWRITTEN:] if each.is_open]
        for value, data in values:
            if is_array(data[0]) and value[0] != b"PING":
                self.arrives(relay, by, Message(data))

    def arrives(self, relay, by, message):
        """A message was read whole: what was forwarded over this connection, or else what a
        client sent."""
        prefix = relay.prefixes[by.port]
        tag = prefix.encode() + b"." + message.tag if prefix else message.tag
        by.courier = by.courier or self.couriers.get(by.ends)
        if by.courier is None:
            number = self.send(relay, by.port, message)
        else:
            number = self.forwarded(by, message)
        delivery = Delivery(message, number, tag, by)
        by.deliveries.append(delivery)
        relay.unwritten.append(delivery)

    def send(self, relay, port, message):
        folder = next(name for name, each in self.relays.items() if each is relay)
        client = self.plan.clients.index((folder, port))
        entries = " ".join(map(bytes.hex, message.entries))
        self.tell("send %d %s %s", client, message.tag.decode(), entries)
        self.messages += 1
        return self.messages - 1

    def forwarded(self, by, message):
        at, by.taken = by.taken, by.taken + 1
        if at >= len(by.courier.messages):
            self.fault("a message came that wasn't sent")
            return self.messages
        number, sent = by.courier.messages[at]
        if (sent.tag, sent.entries, sent.chunk) != (message.tag, message.entries, message.chunk):
            self.fault("a message came otherwise than it was sent")
        return number

    def answers(self, relay, note, to):
        """Answers that are written whole. One is right where each append of its message was
        synced before."""
        values, to.sent = values_in(to.sent + note.gone())
        for value, _ in values:
            if not isinstance(value, dict) or b"ack" not in value:
                continue
            has_asked = lambda each: each.is_open and each.message.chunk == value[b"ack"]
            asked = next(filter(has_asked, to.deliveries), None)
            if asked is None:
                self.fault("an answer that no message asked for")
            else:
                self.answer(note, to, asked)

    def answer(self, note, to, delivery):
        self.begin(delivery)
        self.tell("ack %d", delivery.place)
        delivery.is_open = False
        to.deliveries.remove(delivery)
        for journal, size in delivery.appends.values():
            is_shown = lambda back, synced: back <= note.moment and size <= synced
            if not any(is_shown(*sync) for sync in journal.syncs):
                self.fault("delivery %d was answered, and an append wasn't synced", delivery.place)

    # Connections that went

    def connected(self, relay, note):
        here, server = ends_of(note.data)
        relay.files[note.file] = self.couriers[here, server] = Going(server)

    def forwards(self, relay, to, data):
        values, to.sent = values_in(to.sent + data)
        for value, whole in values:
            if is_array(whole[0]) and value[0] != b"PING":
                self.forward(relay, to, Message(whole))

    def forward(self, relay, to, message):
        buffer, serial = self.chunk_of(relay, to, message)
        if buffer is None:
            self.fault("a message that is of no chunk")
            return
        self.claim(buffer, serial)
        self.tell("forward %s %d", buffer.name(serial), buffer.output.servers.index(to.server))
        to.chunk = buffer, serial
        to.messages.append((self.messages, message))
        self.messages += 1
        chunk = buffer.chunks.get(serial)
        if chunk is None or (chunk.tag, chunk.entries) != (message.tag, message.entries):
            self.fault("a message of chunk %s doesn't have its events", buffer.name(serial))

    def chunk_of(self, relay, to, message):
        """The chunk that a message names or, where it asks for no answer, one that it has the
        events of."""
        if message.chunk is not None:
            number, place, serial = named(message.chunk)
            fits = number == relay.number and place < len(relay.buffers)
            return (relay.buffers[place], serial) if fits else (None, None)
        for buffer in relay.buffers:
            if buffer.output.asks or to.server not in buffer.output.servers:
                continue
            for serial, chunk in sorted(buffer.chunks.items()):
                its = chunk.tag, chunk.entries
                if chunk.stage == "queued" and its == (message.tag, message.entries):
                    return buffer, serial
        return None, None

    def hears(self, by, values):
        for value in values:
            if isinstance(value, dict) and b"ack" in value and by.chunk is not None:
                number, place, serial = named(value[b"ack"])
                buffer, its = by.chunk
                if (number, place, serial) == (buffer.relay.number, buffer.place, its):
                    self.tell("seen %s", buffer.name(serial))
                    by.is_seen = True

    def closes(self, relay, note):
        """A connection ends: of one that came, what wasn't answered is given up; of one that
        went, the chunk that awaits an answer is given back."""
        of = relay.files.pop(note.file, None)
        if isinstance(of, Coming):
            for each in of.deliveries:
                if each.is_open and each.place is not None:
                    self.tell("abandon %d", each.place)
                each.is_open = False
        elif isinstance(of, Going) and of.chunk is not None and not of.is_seen:
            buffer, serial = of.chunk
            if buffer.output.asks and serial in buffer.chunks:
                self.tell("back %s", buffer.name(serial))
                self.set_stage(buffer, serial, "queued")


def named(chunk):
    """The relay, the buffer and the serial of a chunk's name."""
    try:
        return struct.unpack(">IIQ", base64.b64decode(chunk, validate=True))
    except (binascii.Error, struct.error):
        return None, None, None


def in_order(lives):
    """All that was noted of these lives, by its moments."""
    return sorted((note for life in lives for note in life.notes), key=lambda note: note.moment)


def told_of(plan, notes):
    telling = Telling(plan)
    telling.take_all(notes)
    return telling
