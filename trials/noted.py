"""What noting.c noted of a run of relays, and what the bytes in it mean: standard library alone."""
import hashlib, os, re, struct
from client import counted, take

HEAD = struct.Struct("=QqIIiI")
# noting.c has the same numbers.
STARTED, OPENED, CONNECTED, ACCEPTED, CAME, GOES, SYNCS, CLOSES, RETURNED = range(1, 10)
NAME = re.compile(r"(.+)\.(\d{10})\.(journal|sink)$")


class Note:
    """A call of a relay. Of what goes out, and of a sync, `result` is what it returned and `back`
    when: None where a kill came before that was noted. `told` has the steps that it was told
    as."""

    def __init__(self, life, moment, value, thread, file, call, data):
        self.life, self.moment, self.value, self.thread = life, moment, value, thread
        self.file, self.call, self.data = file, call, data
        self.result = self.back = None
        self.told = []

    def gone(self):
        """The bytes that went out. Those of a call that a kill cut off count as all gone."""
        return self.data if self.result is None else self.data[: max(self.result, 0)]


class Life:
    """One process of a relay, from its start to its kill: its notes, and what its folder had
    after it."""

    def __init__(self, relay, path):
        self.relay, self.path = relay, path
        self.left = {}
        self.notes = []

    def read(self):
        with open(self.path, "rb") as file:
            data = file.read()
        at, open_calls = 0, {}
        while at + HEAD.size <= len(data):
            moment, value, thread, size, number, call = HEAD.unpack_from(data, at)
            at += HEAD.size
            if at + size > len(data):
                break
            note = Note(self, moment, value, thread, number, call, data[at : at + size])
            at += size
            if call == RETURNED:
                before = open_calls.pop(thread)
                before.result, before.back = value, moment
                continue
            if call in (GOES, SYNCS):
                open_calls[thread] = note
            self.notes.append(note)

    def name_of(self, path):
        return os.path.basename(path.decode())


def left_in(folder):
    """Each journal and sink of a folder, with its size and its digest."""
    found = {}
    for name in os.listdir(folder):
        if NAME.match(name):
            with open(os.path.join(folder, name), "rb") as file:
                data = file.read()
            found[name] = len(data), hashlib.sha256(data).hexdigest()
    return found


def cut_to_left(lives):
    """Cuts what a kill kept from being written off the writes that it cut off, and says which
    files of a relay didn't hold what was noted, at the end of one of its lives."""
    noted, wrong = {}, []
    for life in lives:
        open_files, writes = {}, {}
        for note in life.notes:
            if note.call == OPENED:
                name = open_files[note.file] = life.name_of(note.data)
                if note.value & os.O_CREAT:
                    noted[name] = b""
            elif note.call == CLOSES:
                open_files.pop(note.file, None)
            elif note.call == GOES and note.file in open_files:
                writes.setdefault(open_files[note.file], []).append(note)
        for name, (size, digest) in life.left.items():
            its = writes.get(name, [])
            bytes_of_all = noted.get(name, b"") + b"".join(note.gone() for note in its)
            if its and its[-1].result is None:
                its[-1].result = len(its[-1].data) - max(len(bytes_of_all) - size, 0)
                bytes_of_all = bytes_of_all[:size]
            noted[name] = bytes_of_all
            if hashlib.sha256(bytes_of_all).hexdigest() != digest:
                wrong.append(name)
    return wrong


def ends_of(data):
    """Both addresses of a connection, as (host, port): the one here, and the other."""
    found = []
    for at in (0, 16):
        port = struct.unpack_from(">H", data, at + 2)[0]
        found.append((".".join(str(byte) for byte in data[at + 4 : at + 8]), port))
    return found


def items_of(data, at=0):
    """Where the items of the array there begin and end, as places, and where it ends."""
    first, at = data[at], at + 1
    count, at = counted(data, first, at)
    places = []
    for _ in range(count):
        _, end = take(data, at)
        places.append((at, end))
        at = end
    return places, at


def is_array(first):
    return 0x90 <= first < 0xA0 or first in (0xDC, 0xDD)


def is_text(first):
    return 0xA0 <= first < 0xC0 or first in (0xC4, 0xC5, 0xC6, 0xD9, 0xDA, 0xDB)


def entries_in(data):
    """Entries one after another, as they are stored: the byte 92, and the time and the record as
    they came."""
    entries, at = [], 0
    while at < len(data):
        places, at = items_of(data, at)
        (begin, _), (_, end) = places
        entries.append(b"\x92" + data[begin:end])
    return entries


class Message:
    """A message of the Forward Protocol: its tag, its entries as they are stored, and the chunk
    of its option."""

    def __init__(self, data):
        places, _ = items_of(data)
        values = [take(data, begin)[0] for begin, _ in places]
        begin, end = places[1]
        self.tag, option = values[0], None
        if is_array(data[begin]):
            inner, _ = items_of(data, begin)
            self.entries = entries_in(b"".join(data[at:to] for at, to in inner))
            option = values[2] if len(values) > 2 else None
        elif is_text(data[begin]):
            self.entries = entries_in(values[1])
            option = values[2] if len(values) > 2 else None
        else:
            self.entries = [b"\x92" + data[begin : places[2][1]]]
            option = values[3] if len(values) > 3 else None
        self.chunk = (option or {}).get(b"chunk")


def values_in(held):
    """The values that are whole at the beginning of these bytes, each with its bytes, and what is
    behind."""
    found, at = [], 0
    while at < len(held):
        try:
            value, end = take(held, at)
        except IndexError:
            break
        found.append((value, held[at:end]))
        at = end
    return found, held[at:]


def records_in(held):
    """The records that are whole at the beginning of these bytes of a journal, and what is
    behind. A record is its kind, its serial, and of an Append its tag and its entries."""
    found, at = [], 0
    while at + 4 <= len(held):
        size = struct.unpack_from(">I", held, at)[0]
        if at + 4 + size > len(held):
            break
        kind, serial = struct.unpack_from(">BQ", held, at + 4)
        tag, entries = None, None
        if kind == APPEND:
            length = struct.unpack_from(">H", held, at + 13)[0]
            tag = held[at + 15 : at + 15 + length]
            entries = entries_in(held[at + 19 + length : at + 4 + size])
        found.append((kind, serial, tag, entries))
        at += 4 + size
    return found, held[at:]


SEAL, APPEND, QUEUE, PURGE = range(1, 5)


def events_in(data):
    """The events that stand whole in these bytes of a sink, as (tag, entry)."""
    found = []
    for (tag, *_), whole in values_in(data)[0]:
        places, _ = items_of(whole)
        found.append((tag, b"\x92" + whole[places[1][0] : places[2][1]]))
    return found
