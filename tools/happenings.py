"""What the entries of a log mean to each other: who holds what from where to where, and which entry hands over to which."""
from dataclasses import dataclass, field

@dataclass
class Hold:
    """A thread holds an object from one line of the log to another; `end` is None where it never gives it back."""

    thread: int
    obj: str
    start: int
    end: int = None
    kind: str = "lock"  # lock, read, write or weak
    is_revoked: bool = False


@dataclass
class Happenings:
    holds: list = field(default_factory=list)
    arrows: list = field(default_factory=list)  # pairs of lines of the log, by their place in its list; no pair twice
    calls: dict = field(default_factory=dict)  # of a line that belongs to another call than its name says: that call


class Reader:
    """Goes over the lines of a log in order."""

    def __init__(self, lines):
        self.lines = lines
        self.told = Happenings()
        self.held = {}  # object and thread: its hold
        self.given = {}  # object: the lines that gave it last
        self.read_gives = {}  # read-write lock: each reader's last line that gave it since it was last held for writing
        self.waits = {}  # thread: the line of its `center`
        self.signals = {}  # condition: the lines of its signals
        self.arrived = {}  # barrier: the lines of the arrivals
        self.threads = {}  # slot: the lines of its start and its end

    def arrow(self, start, end):
        """Notes a hand-over between two threads."""
        if start is not None and self.lines[start].thread != self.lines[end].thread and (start, end) not in self.told.arrows[-16:]:
            self.told.arrows.append((start, end))

    def takes(self, at, entry, obj, kind):
        if kind == "write":
            gives = self.read_gives.pop(obj, {}) or {None: self.given.get(obj)}
            for it in gives.values():
                self.arrow(it, at)
        else:
            self.arrow(self.given.get(obj), at)
        self.held[obj, entry.thread] = hold = Hold(entry.thread, obj, at, kind=kind)
        self.told.holds.append(hold)

    def gives(self, at, entry, obj):
        hold = self.held.pop((obj, entry.thread), None)
        if hold:
            hold.end = at
            hold.is_revoked = entry.op == "revoke"
        if hold and hold.kind == "read":
            self.read_gives.setdefault(obj, {})[entry.thread] = at
        else:
            self.given[obj] = at
            self.read_gives.pop(obj, None)

    def locks(self, at, entry, obj):
        """The operations on locks of all sorts."""
        op = entry.op
        if op in ("take", "retake"):
            self.takes(at, entry, obj, "weak")
        elif op == "rdlock":
            self.takes(at, entry, obj, "read")
        elif op == "wrlock":
            self.takes(at, entry, obj, "write")
        elif op == "lock" or op == "trylock" and not any(it == obj for it, _ in self.held):
            self.takes(at, entry, obj, "lock")
        elif op in ("unlock", "give", "revoke", "rwunlock"):
            self.gives(at, entry, obj)

    def waiting(self, at, entry, obj):
        """Conditions and barriers; a wait of a condition is center, unlock, cwake, lock."""
        op, thread = entry.op, entry.thread
        if op == "center":
            self.waits[thread] = at, "center"
        elif thread in self.waits and (self.waits[thread][1], op) in (("center", "unlock"), ("unlock", "cwake"), ("cwake", "lock")):
            self.told.calls[at] = "pthread_cond_wait"
            if op == "cwake":
                since = [it for it in self.signals.get(obj, []) if it > self.waits[thread][0]]
                self.arrow(since[0] if since else None, at)
            self.waits[thread] = self.waits[thread][0], op
            if op == "lock":
                del self.waits[thread]
        elif op == "signal":
            self.signals.setdefault(obj, []).append(at)
        elif op == "arrive":
            self.arrived.setdefault(obj, []).append(at)
        elif op == "pass":
            self.arrow(self.last_to_come(obj, thread), at)

    def next_of(self, at):
        """The operation of the next line of the same thread, or None."""
        return next((it.op for it in self.lines[at + 1 :] if it.thread == self.lines[at].thread), None)

    def last_to_come(self, barrier, thread):
        """The arrival by which this thread may pass: the first from its own on, whose thread goes on without a pass."""
        arrived = self.arrived.get(barrier, [])
        own = max((it for it in arrived if self.lines[it].thread == thread), default=None)
        return next((it for it in arrived if own is not None and it >= own and self.next_of(it) not in ("pass", "stop", None)), None)

    def lives(self, at, entry, obj):
        """Threads that begin after their start and are joined after their end."""
        if entry.op in ("start", "end"):
            self.threads[obj, entry.op] = at
        elif entry.op in ("begin", "join"):
            self.arrow(self.threads.get((obj, "start" if entry.op == "begin" else "end")), at)


def read(log):
    """What the entries of a log mean to each other. The log may be wrong: what makes no sense is left out."""
    reader = Reader(log.entries)
    for at, entry in enumerate(log.entries):
        for obj in entry.objects:
            reader.waiting(at, entry, obj)
            reader.locks(at, entry, obj)
            reader.lives(at, entry, obj)
    return reader.told
