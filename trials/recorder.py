"""Servers of the Forward Protocol that keep what relays send: standard library alone."""
import base64, os, socket, struct, threading, time
from client import HOST, Stream, array, digest, table, text


def acknowledgement(chunk):
    return table([("ack", text(chunk))])


class Recorder(threading.Thread):
    """A server at a free port, which acknowledges each message, but says nothing on its first connections. Or one without the key, which shows
    each client its own name and digest. Or one that gives another answer to a message with a chunk, or closes the connection where that is
    empty."""

    def __init__(self, key=None, silent=0, host=HOST, reflects=False, answer=acknowledgement):
        super().__init__(daemon=True)
        self.key, self.silent, self.host, self.reflects, self.answer = key, silent, host, reflects, answer
        self.chunks, self.times, self.salts, self.connections = [], [], [], []
        self.socket = socket.create_server((host, 0), backlog=128)
        self.port = self.socket.getsockname()[1]
        self.start()

    def run(self):
        try:
            while True:
                connected, _ = self.socket.accept()
                self.connections.append(connected)
                words = Stream(connected, 60), len(self.connections)
                threading.Thread(target=self.serve, args=words, daemon=True).start()
        except OSError:
            pass

    def serve(self, stream, place):
        try:
            if self.key is not None or self.reflects:
                self.shake(stream)
            while True:
                tag, packed, option = stream.value()
                self.times.append(time.monotonic())
                self.chunks.append((tag, packed, option[b"chunk"]))
                answer = self.answer(option[b"chunk"])
                if not answer:
                    return stream.close()
                if place > self.silent:
                    stream.send(answer)
        except (OSError, TimeoutError):
            stream.close()

    def shake(self, stream):
        nonce, name = os.urandom(16), b"recorder"
        asked = table([("nonce", text(nonce)), ("auth", text("")), ("keepalive", b"\xc3")])
        stream.send(array([text("HELO"), asked]))
        ping = stream.value()
        self.salts.append(ping[2])
        if self.reflects:
            name, shown = ping[1], ping[3]
        else:
            shown = digest(ping[2], name, nonce, self.key.encode())
        stream.send(array([text("PONG"), b"\xc3", text(""), text(name), text(shown)]))

    def ids(self):
        """The relay, the buffer and the serial that the name of each chunk says."""
        return [struct.unpack(">IIQ", base64.b64decode(name)) for _, _, name in self.chunks]

    def refuse(self):
        """Takes no further connection; those that there are stay."""
        self.socket.shutdown(socket.SHUT_RDWR)
        self.socket.close()

    def close(self):
        self.refuse()
        for connected in self.connections:
            connected.close()
