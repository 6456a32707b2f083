"""How far a run over the crates is, and about how long the rest takes: a line on each crate as it is done."""
import re
import sys
import threading
import time

from crates import TOP, below

# Of the table in docs/CONTRIBUTING.md: a crate, and what the gate took of it in processor seconds.
ROW = re.compile(r"^(\w+) \|[\d ]*\| ([\d,]+) \|([\d, ]*)\|([\d, ]*)$", re.M)
# The first pace is that of the machine of the table, which so many seconds in a lane outweigh.
EARLIER = 100


def costs():
    """What each crate's proof takes in processor seconds, and what its edits take with the check before them."""
    with open(f"{TOP}/docs/CONTRIBUTING.md", encoding="utf-8") as file:
        rows = ROW.findall(file.read())
    numbers = {name: [int(it.replace(",", "").strip() or 0) for it in took] for name, *took in rows}
    proofs = {name: proof for name, (proof, _, _) in numbers.items()}
    return proofs, {name: before + edits for name, (_, before, edits) in numbers.items()}


class Progress:
    """A run over these crates in so many lanes. What each takes by the table counts until it is known that it's spared.

    The pace is the time that lanes had something to prove in, by what was proved; of each crate that is begun half
    counts. What else is to be done fills the lanes."""

    def __init__(self, names, uses, proofs, more, lanes, out=sys.stdout):
        self.todo, self.out = {it: set(below(it, uses)) for it in names}, out
        mean = sum(proofs.values()) / len(proofs)  # for a crate that isn't in the table
        self.proofs, self.lanes, self.count = {it: proofs.get(it, mean) for it in names}, lanes, len(names)
        self.work, self.spent, self.proved = sum(self.proofs.values()) + more, EARLIER, EARLIER
        self.begun = self.last = time.time()
        self.since, self.one, self.is_over = {it: self.begun for it in self.ready()}, threading.RLock(), threading.Event()
        if out.isatty():
            threading.Thread(target=self.pulse, daemon=True).start()

    def ready(self):
        """The crates whose libraries are done."""
        return [it for it, low in self.todo.items() if low.isdisjoint(self.todo)]

    def add(self, work):
        """Takes note of work that is to be done beside, or of less."""
        with self.one:
            self.work += work

    def state(self):
        """How many crates are done, after how long, and how many minutes the rest takes at the pace so far."""
        seconds = time.time() - self.begun
        running = sorted(self.since, key=self.since.get)[: self.lanes - 1]
        half = sum(self.proofs[it] for it in running) / 2
        left = self.spent / (self.proved + half) * self.work / self.lanes - seconds
        took = f"{seconds / 60:.0f} min" if seconds >= 90 else f"{seconds:.0f} s"
        return f"{self.count - len(self.todo)} of {self.count} crates, {took}" + (f"; about {left / 60:.0f} more" if left >= 90 else "")

    def done(self, name, what, is_kept=False):
        """Says what became of a crate: it was proved, or found proved."""
        with self.one:
            now, work = time.time(), self.proofs[name]
            self.spent, self.last = self.spent + (now - self.last) * min(self.lanes, len(self.since)), now
            self.todo.pop(name, None)
            self.since = {it: self.since.get(it, now) for it in self.ready()}
            if is_kept:
                self.work -= work
            else:
                self.proved += work
            self.tell(f"{name}: {what}")

    def tell(self, what):
        """Says something, and how far the run is."""
        with self.one:
            self.show(f"{what} ({self.state()})\n")

    def show(self, text):
        """Prints over the line that shows how the run goes on."""
        with self.one:
            print(f"\r\033[K{text}" if self.out.isatty() else text, end="", file=self.out, flush=True)

    def pulse(self):
        """Shows on a terminal each ten seconds how far the run is."""
        while not self.is_over.wait(10):
            with self.one:
                self.show("" if self.is_over.is_set() else self.state())

    def end(self):
        """Nothing more is shown."""
        self.is_over.set()
        self.show("")
