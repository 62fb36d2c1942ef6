"""Relays whose calls are noted, and what the step machine says of what they did: standard library
alone."""
import collections, os, subprocess
from house import Relay, Room
from noted import Life, cut_to_left, left_in
from plans import Plan
from telling import in_order, told_of

HERE = os.path.dirname(os.path.realpath(__file__))


def make_library(folder):
    made = os.path.join(folder, "noting.so")
    words = ["cc", "-O1", "-shared", "-fPIC", "-o", made, os.path.join(HERE, "noting.c")]
    subprocess.run(words, check=True)
    return made


class Noted(Relay):
    """A relay whose calls are noted, in each of its lives."""

    def __init__(self, room, name, number, conf):
        super().__init__(room.program, room.path, name, number, conf)
        self.name, self.library, self.lives = name, room.library, []

    def start(self, last=0):
        """Starts it, and waits until it is ready. Behind so many notes it kills itself, unless
        that is 0."""
        path = "%s.%d.notes" % (self.folder, len(self.lives))
        self.lives.append(Life(self.name, path))
        self.environment = {**os.environ, "LD_PRELOAD": self.library, "NOTING_FILE": path}
        self.environment["NOTING_LAST"] = str(last)
        return super().start()

    def kill(self):
        was_running = self.process is not None
        super().kill()
        if was_running:
            self.lives[-1].left = left_in(self.folder) if os.path.isdir(self.folder) else {}

    def sinks(self):
        """The events of each of its sinks that has some."""
        paths = {os.path.basename(file).split(".")[0] for file in self.sink_files()}
        found = {(self.number, path): collections.Counter(self.sink(path)) for path in paths}
        return {place: events for place, events in found.items() if events}


class NotedRoom(Room):
    """A folder for relays whose calls are noted, and for their plan."""

    def __init__(self, program, operator, library, name, is_kept):
        super().__init__(program, name, is_kept)
        self.operator, self.library = operator, library

    def relay(self, name, number, conf):
        made = Noted(self, name, number, conf)
        self.relays.append(made)
        return made

    def in_it(self, *words):
        """Runs these words in the folder: what is printed, and the status."""
        ran = subprocess.run(words, cwd=self.path, capture_output=True, text=True)
        return ran.stdout, ran.returncode

    def write(self, name, text):
        with open(os.path.join(self.path, name), "w") as file:
            file.write(text)

    def label(self, lines):
        """Writes down a plan of these lines, with labels and reaches where some are found."""
        self.write("plan", "\n".join(lines) + "\n")
        labelled, status = self.in_it(self.operator, "label", "plan")
        if status == 0:
            self.write("plan", labelled)

    def read_notes(self):
        """All that was noted, in order, and the names of files that don't hold it."""
        lives, changed = [], []
        for relay in self.relays:
            for life in relay.lives:
                life.read()
            changed += cut_to_left(relay.lives)
            lives += relay.lives
        return in_order(lives), changed

    def tell(self, notes):
        return told_of(Plan(os.path.join(self.path, "plan")), notes)

    def judge(self, name, telling):
        return Judgement(self, name, telling)


class Judgement:
    """What was noted, as it is told, and what a replay says of it."""

    def __init__(self, room, name, telling):
        self.telling = telling
        room.write(name + ".steps", "\n".join(telling.lines) + "\n")
        out, self.status = room.in_it(room.program, "replay", "plan", name + ".steps")
        self.said = out.splitlines() or ["nothing"]
        self.faults = telling.faults

    def is_taken(self):
        """Whether each step was taken."""
        return self.said[-1].startswith("steps ")

    def refused(self):
        """The step that was refused, if one was."""
        words = self.said[-1].split()
        return self.telling.lines[int(words[2]) - 1] if words[:2] == ["refused", "step"] else ""

    def events(self, word):
        """The acknowledged events that are listed as held, or as lost, as (tag, entry) in text."""
        lines = [line.split(" ")[1:] for line in self.said if line.startswith(word + " ")]
        return collections.Counter(map(tuple, lines))

    def counts(self):
        """How many steps there are of each word."""
        found = collections.Counter(line.split()[0] for line in self.telling.lines)
        return " ".join("%s %d" % each for each in sorted(found.items()))

    def sinks(self):
        """What was told of each sink."""
        stored = self.telling.stored.items()
        return {place: collections.Counter(its) for place, its in stored if its}
