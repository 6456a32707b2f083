#!/usr/bin/env -S python3 -B
"""Builds ns_cli by the records of its proofs, and proves nothing: scripts/by_record.py [PROGRAM | --are-of]

records/NAME is what `rattle check -o` wrote where the crate was proved: its verdict, and a sum of each file that was
read, of the compiler, and of what it made of them. `rattle build --crate-checked` takes that verdict where every sum
is the same, and else builds nothing. Whoever can write a record can make it say what he wants: ./prove needs none.

The program goes to where ./ns_cli looks for it, or to PROGRAM. With --are-of nothing is built. The status is 0 where
it was built, or where the records are of these very sources; 3 where they aren't, with what differs on standard
error; and 70 where it could not be built.
"""
import fcntl
import hashlib
import os
import shutil
import sys
import tempfile
import time

from crates import FAILED, TOP, below, in_lanes, kit, lanes, run, said_by, sources_of, uses_by_crate

OUT = f"{TOP}/crates/ns_cli/out/by_record"
OF_OTHERS = 3
TARGET = "x86_64-unknown-linux-gnu"


def crates_of_program():
    """ns_cli and what it stands on, each crate behind those below it; and what each uses."""
    uses = uses_by_crate()
    return [*below("ns_cli", uses), "ns_cli"], uses


def sums_in(name):
    """The sum of each source of the crate, by its path, as its record has it. Of a file with derives the record has
    two: of the text with what they write, and behind that of the text as it stands in the file."""
    with open(f"{TOP}/records/{name}/inputs", encoding="utf-8") as file:
        lines = [line.split('"') for line in file if line.startswith(('file "', 'written "'))]
    return {path: rest.strip() for _, path, rest in lines}


def difference():
    """What of the sources is not as the records have it, or None where they are of just these."""
    for name in crates_of_program()[0]:
        try:
            sums = sums_in(name)
        except (OSError, ValueError):
            return f"there is no record of {name}"
        for path in sources_of(name):
            with open(f"{TOP}/crates/{name}/{path}", "rb") as file:
                if sums.pop(path, None) != hashlib.sha256(file.read()).hexdigest():
                    return f"crates/{name}/{path} is not as it was proved"
        if sums:
            return f"crates/{name}/{min(sums)} is missing"
    return None


def root_of(name):
    """The crate's root file."""
    return next(it for it in ("src/main.rt", "src/lib.rt") if os.path.isfile(f"{TOP}/crates/{name}/{it}"))


def words(name, uses, the_kit, room):
    """What `rattle` is told of a crate whose libraries stand in the room, or in the kit."""
    told = ["--crate-name", name, root_of(name), "-L", f"dependency={the_kit}/rlibs", "-L", f"dependency={room}"]
    for low in ["std", *uses[name]]:
        told += ["--extern", f"{low}={room if low in uses else f'{the_kit}/rlibs'}/{low}.rlib"]
    return [*told, "--links", f"{name}=", "--antt-project", f"{the_kit}/rattle/logic/antt-project.json"]


def build(name, uses, the_kit, room, record):
    """Builds a crate by this record, in the room: a library, or the program, by Rattle's own compiler, which takes less
    time than LLVM."""
    folder, tools = f"{TOP}/crates/{name}", ["--toolchain", f"{the_kit}/toolchain"]
    told = [*words(name, uses, the_kit, room), "--crate-checked", record]
    if root_of(name) == "src/lib.rt":
        return said_by(folder, "rattle", "build", *told, "-o", f"{room}/{name}.rlib")
    is_well, said = said_by(folder, "rattle", "build", *told, *tools, "--backend", "rattle", "-o", f"{room}/{name}.o")
    if not is_well:
        return is_well, said
    parts = [f"{room}/{name}.o", f"{the_kit}/c/libos_c.a", f"{the_kit}/c/liblibc_c.a"]
    return said_by(folder, f"{the_kit}/bin/rattle-link", "--target", TARGET, *tools, "-o", f"{room}/{name}", *parts)


def build_program(program):
    """Builds the program by the records. Answers what was said of the crate that could not be built, or None."""
    names, uses = crates_of_program()
    the_kit = kit()
    with tempfile.TemporaryDirectory(prefix="ns_cli-") as room:
        def work(name, _lane):
            return build(name, uses, the_kit, room, f"{TOP}/records/{name}")

        failed = in_lanes(names, uses, lanes(1, 2, 4), work)
        if failed is None:
            shutil.copy(f"{room}/ns_cli", f"{program}.new")
            os.replace(f"{program}.new", program)
    return failed


def build_here():
    """Builds the program where ./ns_cli looks for it, unless another run has done so while this one waited for it."""
    begun, marker = time.time(), f"{OUT}/built"
    os.makedirs(OUT, exist_ok=True)
    with open(f"{OUT}/lock", "w", encoding="utf-8") as lock:
        fcntl.flock(lock, fcntl.LOCK_EX)
        if os.path.exists(marker) and os.stat(marker).st_ctime > begun:
            return None
        begun = time.time()
        failed = build_program(f"{OUT}/ns_cli")
        if failed is None:
            with open(marker, "w", encoding="utf-8"):
                os.utime(marker, (begun, begun))  # what changes from then on is newer than the program
    return failed


def main(given):
    if not shutil.which("rt"):
        print("ns_cli: there is no rt on the path", file=sys.stderr)
        return FAILED
    if not os.path.isdir(f"{TOP}/records"):
        print("ns_cli: there are no records of proofs (./record makes them)", file=sys.stderr)
        return OF_OTHERS
    differs = difference()
    if differs:
        print(f"ns_cli: the records of proofs are not of these sources: {differs}", file=sys.stderr)
        return OF_OTHERS
    if given == ["--are-of"]:
        return 0
    if not given:
        print(f"ns_cli: first run: building {len(crates_of_program()[0])} crates, in one to five minutes. "
              "The proofs are taken from records/; ./prove makes them here", file=sys.stderr, flush=True)
    failed = build_program(os.path.abspath(given[0])) if given else build_here()
    if failed is None:
        return 0
    why = next((it for it in failed.splitlines() if "error" in it), failed)
    print(f"ns_cli: not built by the records: {why.partition(': help: ')[0]}", file=sys.stderr)
    return FAILED


if __name__ == "__main__":
    run(main)
