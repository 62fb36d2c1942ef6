#!/usr/bin/env python3
"""A client of the Forward Protocol (v1), with the standard library alone.

    client.py PORT MODE [--tag TAG] [--first N] [--count N] [--key KEY] [--cut HOW] [--wait SECONDS]

MODE is message, forward, packed or packed_bin (with a chunk id each, whose acknowledgement is waited for), or plain (message mode
without one). Event N has the time N and the record {"n": "N"}. --cut is whole (a message in each write), together (all messages in
one write) or bytes (one byte in each write). Prints `acknowledged N` once an event is acknowledged, and in the end `sent COUNT`.
Ends with 1 where an acknowledgement doesn't come in time, and with 3 where the connection is lost.
"""
import argparse, base64, hashlib, os, socket, struct, sys, time

HOST = "127.0.0.1"


def sized(data, heads):
    """Bytes behind the first of these heads, of 1, 2 and 4 bytes of length, that has room for them."""
    for head, form in zip(heads, (">B", ">H", ">I")):
        if head and len(data) < 1 << 8 * struct.calcsize(form):
            return bytes([head]) + struct.pack(form, len(data)) + data
    raise ValueError("too many bytes")


def text(value):
    data = value.encode() if isinstance(value, str) else value
    return bytes([0xA0 | len(data)]) + data if len(data) < 32 else sized(data, (0xD9, 0xDA, 0xDB))


def binary(data):
    return sized(data, (0xC4, 0xC5, 0xC6))


def number(n):
    if n < 128:
        return bytes([n])
    return b"\xce" + struct.pack(">I", n) if n < 2**32 else b"\xcf" + struct.pack(">Q", n)


def event_time(seconds, nanoseconds):
    return b"\xd7\x00" + struct.pack(">II", seconds, nanoseconds)


def array(items):
    head = bytes([0x90 | len(items)]) if len(items) < 16 else b"\xdc" + struct.pack(">H", len(items))
    return head + b"".join(items)


def table(pairs):
    return bytes([0x80 | len(pairs)]) + b"".join(text(k) + v for k, v in pairs)


def record(n):
    return table([("n", text(str(n)))])


def stored(n):
    """The entry of event N, as relays store it."""
    return array([number(n), record(n)])


def message(mode, tag, numbers, chunk):
    """The events of these numbers in this mode."""
    return spelled(mode, text(tag), [(number(n), record(n)) for n in numbers], chunk and text(chunk))


def spelled(mode, tag, events, chunk):
    """Events in this mode, of which the tag, the chunk, if there is one, and each event's time and record are given as items."""
    option = [] if chunk is None else [table([("chunk", chunk)])]
    if mode in ("message", "plain"):
        return b"".join(array([tag, *event, *option]) for event in events)
    entries = [array(event) for event in events]
    if mode == "forward":
        return array([tag, array(entries), *option])
    packed = b"".join(entries)
    return array([tag, binary(packed) if mode == "packed_bin" else text(packed), *option])


# Behind the first byte of an item: how many bytes it has, or how many bytes its length has, and how
# many more than that.
PLAIN = {0xCA: 4, 0xCB: 8, 0xCC: 1, 0xCD: 2, 0xCE: 4, 0xCF: 8, 0xD0: 1, 0xD1: 2, 0xD2: 4, 0xD3: 8}
PLAIN.update({0xD4: 2, 0xD5: 3, 0xD6: 5, 0xD7: 9, 0xD8: 17})
SIZED = {0xC4: (1, 0), 0xC5: (2, 0), 0xC6: (4, 0), 0xD9: (1, 0), 0xDA: (2, 0), 0xDB: (4, 0), 0xC7: (1, 1), 0xC8: (2, 1), 0xC9: (4, 1)}
COUNTED = {0xDC: 2, 0xDD: 4, 0xDE: 2, 0xDF: 4}


def take(data, at):
    """The value at `at`, and where it ends: a number, text or extension as its bytes. IndexError where it isn't whole."""
    first, at = data[at], at + 1
    if first < 0x80 or first >= 0xE0:
        return first, at
    if first < 0x90 or first in (0xDE, 0xDF):
        count, at = counted(data, first, at)
        items, at = taken(data, at, 2 * count)
        return dict(zip(items[::2], items[1::2])), at
    if first < 0xA0 or first in (0xDC, 0xDD):
        count, at = counted(data, first, at)
        return taken(data, at, count)
    if first in (0xC0, 0xC2, 0xC3):
        return {0xC0: None, 0xC2: False, 0xC3: True}[first], at
    if first < 0xC0:
        return piece(data, at, first & 0x1F)
    if first in PLAIN:
        return piece(data, at, PLAIN[first])
    if first not in SIZED:
        raise ValueError("a first byte %02x" % first)
    width, more = SIZED[first]
    size, at = piece(data, at, width)
    return piece(data, at, int.from_bytes(size, "big") + more)


def counted(data, first, at):
    """How many items a container has, and where they begin."""
    if first not in COUNTED:
        return first & 0x0F, at
    count, at = piece(data, at, COUNTED[first])
    return int.from_bytes(count, "big"), at


def taken(data, at, count):
    found = []
    for _ in range(count):
        value, at = take(data, at)
        found.append(value)
    return found, at


def piece(data, at, size):
    if at + size > len(data):
        raise IndexError
    return bytes(data[at : at + size]), at + size


class Stream:
    """Either end of a connection, as the values that come over it."""

    def __init__(self, connected, wait):
        self.socket = connected
        self.socket.setsockopt(socket.IPPROTO_TCP, socket.TCP_NODELAY, 1)
        self.wait = wait
        self.held = b""

    def value(self):
        """The next value that comes."""
        until = time.monotonic() + self.wait
        while True:
            try:
                found, end = take(self.held, 0)
                self.held = self.held[end:]
                return found
            except IndexError:
                pass
            left = until - time.monotonic()
            if left <= 0:
                raise TimeoutError
            self.socket.settimeout(left)
            more = self.socket.recv(1 << 20)
            if not more:
                raise ConnectionError("the other end closed the connection")
            self.held += more

    def send(self, data, cut="whole"):
        if cut == "bytes":
            for byte in data:
                self.socket.sendall(bytes([byte]))
        else:
            self.socket.sendall(data)

    def close(self):
        self.socket.close()


def digest(salt, name, nonce, key):
    return hashlib.sha512(salt + name + nonce + key).hexdigest()


class Client(Stream):
    def __init__(self, port, wait=30.0, host=HOST):
        super().__init__(socket.create_connection((host, port), timeout=wait), wait)
        self.nonce = None

    def shake(self, name, key):
        helo = self.value()
        assert helo[0] == b"HELO", helo
        self.nonce = helo[1][b"nonce"]
        salt = os.urandom(16)
        shown = digest(salt, name, self.nonce, key)
        self.send(array([text("PING"), text(name), text(salt), text(shown), text(""), text("")]))
        pong = self.value()
        assert pong[0] == b"PONG", pong
        if pong[1] is not True:
            return False
        assert pong[4] == digest(salt, pong[3], self.nonce, key).encode(), "the relay doesn't show the key"
        return True

    def acknowledged(self, chunk):
        return self.value() == {b"ack": chunk.encode()}


def chunk_id():
    return base64.b64encode(os.urandom(16)).decode()


def main():
    parser = argparse.ArgumentParser()
    parser.add_argument("port", type=int)
    parser.add_argument("mode")
    parser.add_argument("--tag", default="app.x")
    parser.add_argument("--first", type=int, default=0)
    parser.add_argument("--count", type=int, default=3)
    parser.add_argument("--key")
    parser.add_argument("--cut", default="whole")
    parser.add_argument("--wait", type=float, default=30.0)
    words = parser.parse_args()
    try:
        client = Client(words.port, words.wait)
        if words.key is not None and not client.shake(b"client", words.key.encode()):
            print("refused")
            return 1
        asked = []
        together = b""
        for n in range(words.first, words.first + words.count):
            chunk = None if words.mode == "plain" else chunk_id()
            data = message(words.mode, words.tag, [n], chunk)
            asked.append((n, chunk))
            if words.cut == "together":
                together += data
                continue
            client.send(data, words.cut)
            if chunk is not None:
                assert client.acknowledged(chunk), "another acknowledgement"
                print("acknowledged", n, flush=True)
        if words.cut == "together":
            client.send(together)
            for n, chunk in asked:
                if chunk is not None:
                    assert client.acknowledged(chunk), "another acknowledgement"
                    print("acknowledged", n, flush=True)
        print("sent", len(asked))
        return 0
    except TimeoutError:
        print("no answer", file=sys.stderr)
        return 1
    except OSError as fault:
        print(fault, file=sys.stderr)
        return 3


if __name__ == "__main__":
    sys.exit(main())
