"""The steps of a drawn network with one event, by docs/CHECKING.md and not by the program."""
import collections
from drawing import Nobody

Message = collections.namedtuple("Message", "chunk at tag is_answered")
Delivery = collections.namedtuple("Delivery", "message place tag leaves appended")
Chunk = collections.namedtuple("Chunk", "place buffer serial tag state sent is_seen")


class World:
    """What one event of a network came to: messages, open deliveries by number, how many there were, chunks, and how many each buffer had."""

    def __init__(self, net, messages, deliveries=(), begun=0, chunks=frozenset(), serials=()):
        self.net, self.messages, self.deliveries = net, messages, deliveries
        self.begun, self.chunks, self.serials = begun, chunks, serials

    def key(self):
        return self.messages, self.deliveries, self.begun, self.chunks, self.serials

    def changed(self, **parts):
        whole = dict(messages=self.messages, deliveries=self.deliveries, begun=self.begun, chunks=self.chunks, serials=self.serials)
        return World(self.net, **{**whole, **parts})

    def output(self, chunk):
        return self.net.relays[chunk.place].buffers[chunk.buffer]

    def next(self):
        """Each step that is allowed here, and the world behind it. Of those that lose nothing by themselves some are left out: `abandon`,
        `back`, `write`, `part`."""
        for number, message in enumerate(self.messages):
            yield from self.of_message(number, message)
        for number, delivery in self.deliveries:
            yield from self.of_delivery(number, delivery)
        for chunk in self.chunks:
            yield from self.of_chunk(chunk)
        for place in range(len(self.net.relays)):
            yield "restart %d" % (place + 1), self.restarted(place)

    def of_message(self, number, message):
        if isinstance(message.at, Nobody):
            yield "foreign %d" % number, self.changed(messages=self.answered(number))
            return
        leaves = leaves_at(message.at, message.tag)
        if leaves is not None:
            begun = Delivery(number, message.at.relay.place, message.at.enter(message.tag), leaves, frozenset())
            yield "begin %d" % number, self.changed(deliveries=(*self.deliveries, (self.begun, begun)), begun=self.begun + 1)

    def answered(self, number):
        before, one, behind = self.messages[:number], self.messages[number], self.messages[number + 1 :]
        return (*before, one._replace(is_answered=True), *behind)

    def of_delivery(self, number, delivery):
        others = tuple(each for each in self.deliveries if each[0] != number)
        for buffer in set(delivery.leaves) - delivery.appended:
            longer = delivery._replace(appended=delivery.appended | {buffer})
            place, counts = delivery.place, dict(self.serials)
            staged = {each for each in self.chunks if each[:2] == (place, buffer) and each.state == "staged"}
            opened = tuple(sorted((*others, (number, longer))))
            for chunk in staged:
                if chunk.tag == delivery.tag:
                    yield "append %d %d %d" % (number, buffer, chunk.serial), self.changed(deliveries=opened)
            serial = counts.get((place, buffer), 0)
            chunk = Chunk(place, buffer, serial, delivery.tag, "staged", frozenset(), False)
            counts[place, buffer] = serial + 1
            more = dict(chunks=self.chunks | {chunk}, serials=tuple(sorted(counts.items())))
            yield "append %d %d %d" % (number, buffer, serial), self.changed(deliveries=opened, **more)
        if delivery.appended == set(delivery.leaves):
            yield "ack %d" % number, self.changed(deliveries=others, messages=self.answered(delivery.message))

    def of_chunk(self, chunk):
        output, name = self.output(chunk), "%d/%d/%d" % (chunk.place + 1, chunk.buffer, chunk.serial)
        others = self.chunks - {chunk}
        gone = self.changed(chunks=others)
        if chunk.state == "staged":
            yield "enqueue " + name, self.changed(chunks=others | {chunk._replace(state="queued")})
        elif chunk.state == "queued":
            yield "claim " + name, self.changed(chunks=others | {chunk._replace(state="claimed")})
            if "overflow_action drop_oldest_chunk" in output.kept and self.is_oldest(chunk):
                yield "oldest %d %d" % (chunk.place + 1, chunk.buffer), gone
        else:
            if "retry_forever false" in output.kept:
                yield "discard " + name, gone
            for number, server in enumerate(output.servers):
                message = Message(chunk[:3], server, chunk.tag, False)
                sent = chunk._replace(sent=chunk.sent | {len(self.messages)})
                yield "forward %s %d" % (name, number), self.changed(messages=(*self.messages, message), chunks=others | {sent})
            if output.kind == "forward" and output.asks and any(self.messages[each].is_answered for each in chunk.sent):
                yield "seen " + name, self.changed(chunks=others | {chunk._replace(is_seen=True)})
            if chunk.is_seen:
                yield "purge " + name, gone
            if output.kind == "forward" and not output.asks and chunk.sent:
                yield "done " + name, gone

    def is_oldest(self, chunk):
        queued = [each for each in self.chunks if each[:2] == chunk[:2] and each.state == "queued"]
        return chunk.serial == min(each.serial for each in queued)

    def restarted(self, place):
        def is_in_memory(at, buffer):
            return at == place and self.net.relays[at].buffers[buffer].is_in_memory()

        kept = [each for each in self.chunks if not is_in_memory(each.place, each.buffer)]
        held = [self.stopped(each) if each.place == place and each.state == "claimed" else each for each in kept]
        return self.changed(
            chunks=frozenset(held),
            serials=tuple(each for each in self.serials if not is_in_memory(*each[0])),
            deliveries=tuple(each for each in self.deliveries if each[1].place != place),
        )

    def stopped(self, chunk):
        """The claimed chunk behind a restart. What asks for acknowledgements may still see one that comes for what was sent before."""
        sent = chunk.sent if self.output(chunk).asks else frozenset()
        return chunk._replace(state="queued", is_seen=False, sent=sent)

    def has_lost(self):
        first = self.messages[0]
        if not first.is_answered:
            return False
        if self.net.duty == "any":
            return not self.chunks
        return not self.each_keeps(first, frozenset())

    def each_keeps(self, message, above):
        """Each buffer that the message's event comes to keeps it, and it comes to one."""
        if isinstance(message.at, Nobody):
            return False
        place, tag = message.at.relay.place, message.at.enter(message.tag)
        leaves = leaves_at(message.at, message.tag)
        return bool(leaves) and all(self.keeps(place, buffer, tag, above) for buffer in leaves)

    def keeps(self, place, buffer, tag, above):
        if any(each[:2] == (place, buffer) and each.tag == tag for each in self.chunks):
            return True
        for number, each in enumerate(self.messages):
            if each.is_answered and each.chunk and each.chunk[:2] == (place, buffer) and each.tag == tag and number not in above:
                if self.each_keeps(each, above | {number}):
                    return True
        return False


def leaves_at(at, tag):
    """The buffers, by their numbers, that an event with this tag comes to from this source; None where its way is a loop."""
    ends = at.relay.ends(at.scope, at.enter(tag))
    return ends if ends is None else tuple(sorted({at.relay.buffers.index(each) for each in ends}))


def sent(net, at, tag):
    return World(net, (Message(None, at, tag, False),))
