"""A plan of a network as the trials read it by themselves: standard library alone."""
import os


class Section:
    """A section of a configuration: its parameters, and the sections in it."""

    def __init__(self, name, argument):
        self.name, self.argument = name, argument
        self.values, self.inner = {}, []

    def get(self, key, otherwise=None):
        return self.values.get(key, otherwise)

    def all(self, *names):
        """Each section of these names in it, at any depth, in the order of the text."""
        for each in self.inner:
            if each.name in names:
                yield each
            yield from each.all(*names)


def sections_of(text):
    top = Section("", "")
    above = [top]
    for line in (line.strip() for line in text.splitlines()):
        if not line or line.startswith("#"):
            continue
        if line.startswith("</"):
            above.pop()
        elif line.startswith("<"):
            name, _, argument = line[1:-1].partition(" ")
            above[-1].inner.append(Section(name, argument))
            above.append(above[-1].inner[-1])
        else:
            key, _, value = line.partition(" ")
            above[-1].values[key] = value.strip()
    return top


class Output:
    """An output with a buffer."""

    def __init__(self, section):
        kept = next(section.all("buffer"), Section("buffer", ""))
        self.is_file = section.get("@type") == "file"
        self.sink = section.get("path")
        self.path = kept.get("path") if kept.get("@type") == "file" else None
        self.asks = section.get("require_ack_response") == "true"
        self.is_forever = kept.get("retry_forever") == "true"
        servers = section.all("server")
        self.servers = [(each.get("host"), int(each.get("port"))) for each in servers]


class PlannedRelay:
    def __init__(self, number, conf):
        self.number = number
        with open(conf) as text:
            top = sections_of(text.read())
        sources = [(int(each.get("port")), each) for each in top.all("source")]
        self.prefixes = {port: each.get("add_tag_prefix") for port, each in sources}
        outputs = top.all("match", "store")
        has_buffer = lambda each: each.get("@type") in ("file", "forward")
        self.outputs = [Output(each) for each in outputs if has_buffer(each)]


class Plan:
    """The relays of a plan by their folders, and for each client line the folder and the port."""

    def __init__(self, path):
        self.relays, self.clients = {}, []
        folder = os.path.dirname(path)
        with open(path) as text:
            lines = [line.split() for line in text if line.strip() and not line.startswith("#")]
        for words in lines:
            if words[0] == "relay":
                conf = os.path.join(folder, words[4])
                self.relays[words[3]] = PlannedRelay(int(words[1]), conf)
            elif words[0] == "client":
                folders = {made.number: name for name, made in self.relays.items()}
                self.clients.append((folders[int(words[1])], int(words[2])))
