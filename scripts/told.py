#!/usr/bin/env -S python3 -B
"""Reads what `rt ci` says, and says a line on each crate as it is done: rt ci | scripts/told.py FILE

All that is read goes to FILE. Of what is well there is a line a crate: how far the run is, and about how long the rest
takes, by the table in docs/CONTRIBUTING.md and this run's pace so far. The kit tells what became of the must-fail
edits, tests and programs at its end. Whatever else it says, of a failure or a wait, is shown as it is said, and what
failed is shown whole at the end. The closing line, 'N passed, M failed', is left to ./test.
"""
import glob
import os
import re
import sys

from crates import TOP, has_tests, run, uses_by_crate
from progress import Progress, costs

BEGINS = re.compile(r"== (\w+)(: its tests)?$")
ENDS = re.compile(r"rt: (\w+)(: its tests are)? (proved|NOT PROVED)(: .*)?$")
KEPT = re.compile(r"rt: (\w+) is kept: ")
TRIES = re.compile(r"rt: (\w+): trying its must-fail edits \((\d+)\)$")
CLOSES = re.compile(r"\d+ passed, \d+ failed")
# what is well, and is told in one line at the end, and which crate's it is
REFUSED = re.compile(r"rt: must-fail (\w+)/\S+: refused, as it must be")
EARLIER = re.compile(r"rt: (\w+): \d+ of its \d+ must-fail edits were tried by an earlier run")
PASSED = re.compile(r"rt: (\w+): its tests passed$")
RAN = re.compile(r"rt: (\w+) ran, and wrote what its file stdout has$")
QUIET = re.compile(r"tests: \d+$|test .* \.\.\. ok$|test result: ok\.|rt: \w+ ran \(built by Rattle's own compiler\), |$")
# among what a check says: what is proved and what was read, and why something is not proved
GOOD = re.compile(r"\w+ \S+: proved$|statements \w+: |logic /")
WHY = re.compile(r"rt: (?!note: )|.*(: error\b|it is not proved that |no proof: )")


def edits_of(name):
    return len(glob.glob(f"{TOP}/crates/{name}/must-fail/*.edit"))


class Told:
    """What was read so far, and what of it is still to be said."""

    def __init__(self):
        uses, (proofs, self.edits) = uses_by_crate(), costs()
        more = sum(self.edits.get(it, 0) for it in uses)
        self.progress = Progress([*uses], uses, proofs, more, len(os.sched_getaffinity(0)))
        self.waits = {it: {"", ": its tests are"} if has_tests(it) else {""} for it in uses}
        self.block, self.failed, self.well, self.kept = None, [], {}, set()

    def read(self, line):
        """Takes a line of the kit, and says what it comes to."""
        ends, begins = ENDS.match(line), BEGINS.match(line)
        if begins:
            self.block = [line]
        elif ends:
            self.end(*ends.groups())
        elif self.block is not None:
            self.block.append(line)
        elif KEPT.match(line):
            self.keep(KEPT.match(line)[1])
        elif TRIES.match(line):
            self.begin_edits(*TRIES.match(line).groups())
        elif not CLOSES.match(line) and not self.is_well(line):
            self.failed.append(line)
            self.progress.show(f"{line}\n")

    def end(self, name, tests, verdict, why):
        """A crate, or its tests, is proved, or isn't."""
        block, self.block = self.block or [], None
        self.waits[name].discard(tests or "")
        if verdict != "proved":
            self.failed += [it for it in block if not GOOD.match(it)] or [f"{name} NOT PROVED{why or ''}"]
            first = why or next((f": {it}" for it in block if WHY.match(it)), "")
            self.progress.done(name, f"{'its tests are ' if tests else ''}NOT PROVED{first}")
        elif not self.waits[name]:
            edits = edits_of(name)
            more = f", {edits} wrong bod{'y' if edits == 1 else 'ies'} to refuse" if edits else ", with its tests" if tests else ""
            self.progress.done(name, f"proved{more}")

    def keep(self, name):
        """An earlier run proved the crate, and most likely its tests, and tried its edits."""
        self.kept.add(name)
        self.waits[name].discard("")
        self.progress.add(-self.edits.get(name, 0))
        self.progress.done(name, "kept, an earlier run proved it", is_kept=True)

    def begin_edits(self, name, count):
        edits = edits_of(name)
        if name in self.kept:
            self.progress.add(self.edits.get(name, 0) * int(count) / edits)
        self.progress.tell(f"{name}: its wrong bodies are tried, {count} of {edits}")

    def is_well(self, line):
        """Whether the line only says that something is well."""
        for kind in (REFUSED, EARLIER, PASSED, RAN):
            found = kind.match(line)
            if found:
                self.well.setdefault(kind, []).append(found[1])
                return True
        return bool(QUIET.match(line))

    def close(self):
        """Says what was well at the end, and whole what was not."""
        refused = self.well.get(REFUSED, [])
        told = [("wrong bodies refused", [f"{it} {refused.count(it)}" for it in dict.fromkeys(refused)])]
        told += [("tests passed", self.well.get(PASSED)), ("ran, and printed what they must, built by either compiler", self.well.get(RAN))]
        for what, names in told:
            if names:
                self.progress.show(f"{what}: {', '.join(names)}\n")
        if any("FAILED: " in it or "NOT PROVED" in it for it in self.failed):
            self.progress.show("".join(f"{it}\n" for it in ["", "what failed, whole:", *self.failed]))
        self.progress.end()


def main(words):
    sys.stdout.reconfigure(errors="replace")
    told = Told()
    with open(words[0], "wb") as file:
        for line in sys.stdin.buffer:
            file.write(line)
            file.flush()
            told.read(line.decode(errors="replace").rstrip("\n"))
    told.close()
    return 0


if __name__ == "__main__":
    run(main)
