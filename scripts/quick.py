#!/usr/bin/env -S python3 -B
"""Runs each test and each program without a proof: ./test quick

`rt try` compiles them anew each time, with checks for what a proof would exclude, and proves nothing. A program has to
print what its crate's file stdout has, and to end with the status of its file status, or 0. What has no answer, as a
program that doesn't end in ten minutes, has failed. The last line is 'N passed, M failed'.
"""
import os
import re
import subprocess
import sys
import tempfile
import time
from concurrent.futures import ThreadPoolExecutor, as_completed

from crates import TOP, has_tests, lanes, uses_by_crate

SECONDS = "600"  # the gate gives a program 120, which isn't compiled with checks there
PARTS = 3  # of the rows, which are run one by one


def file_of(name, file):
    """What a file of the crate's folder has, or nothing where there is none."""
    path = f"{TOP}/crates/{name}/{file}"
    if not os.path.isfile(path):
        return b""
    with open(path, "rb") as it:
        return it.read()


def tried(name, words, given=b""):
    """What `rt try` printed in the crate's folder, and what it said of it."""
    ran = subprocess.run(["rt", "try", *words], cwd=f"{TOP}/crates/{name}", input=given, capture_output=True, check=False)
    return ran.stdout, ran.stderr.decode(errors="replace")


def test(name):
    """How many tests of the crate pass, how many fail, and what was said of them."""
    printed, said = tried(name, ["--test", "--seconds", SECONDS])
    said = printed.decode(errors="replace") + said
    counted = re.search(r"^test result: \w+\. (\d+) passed; (\d+) failed", said, re.M)
    passed, failed = map(int, counted.groups()) if counted else (0, 1)
    is_well = "run=ended status=0" in said
    return passed, failed or int(not is_well), f"{name}: {passed} tests passed", said


def run(name, words=None, wanted=None):
    """Whether the program prints and ends as it must."""
    words = file_of(name, "args").decode().splitlines() if words is None else words
    wanted = file_of(name, "stdout") if wanted is None else wanted
    printed, said = tried(name, ["--seconds", SECONDS, "--", *words], file_of(name, "stdin"))
    status = file_of(name, "status").decode().strip() or "0"
    is_well = printed == wanted and f"run=ended status={status} " in said
    return int(is_well), int(not is_well), f"{name}: ran, and printed what it must", printed.decode(errors="replace") + said


def run_rows(part):
    """The same for a part of the rows, which ns_tests reads in the folder that it is told, and tells of in a line each."""
    data = f"{TOP}/crates/ns_tests/data"
    rows = [row for row in file_of("ns_tests", "data/rows").decode().splitlines() if row and row[0] != "#"][part::PARTS]
    with tempfile.TemporaryDirectory() as room:
        for it in set(os.listdir(data)) - {"rows"}:
            os.symlink(f"{data}/{it}", f"{room}/{it}")
        with open(f"{room}/rows", "w", encoding="utf-8") as file:
            file.writelines(f"{row}\n" for row in rows)
        wanted = "".join(f"{row.partition(' of ')[0]}: ok\n" for row in rows)
        passed, failed, _, said = run("ns_tests", [room], wanted.encode())
        return passed, failed, f"ns_tests: {len(rows)} rows printed what they must", said


def main():
    names, begun = uses_by_crate(), time.time()
    programs = [name for name in names if os.path.isfile(f"{TOP}/crates/{name}/src/main.rt") and name != "ns_tests"]
    jobs = [(run_rows, part) for part in range(PARTS)]  # what takes the longest first
    jobs += [(test, name) for name in names if has_tests(name)] + [(run, name) for name in programs]
    print(f"{len(jobs)} tests and programs are compiled and run, in some minutes; nothing is proved", flush=True)
    passed, failed, wrong = 0, 0, []
    with ThreadPoolExecutor(lanes(1, 3, 4)) as pool:
        for ended in as_completed([pool.submit(*job) for job in jobs]):
            well, bad, line, said = ended.result()
            passed, failed = passed + well, failed + bad
            line = f"FAILED, or not all passed: {line}" if bad else line
            print(f"{line} (after {time.time() - begun:.0f} s)", flush=True)
            wrong += [f"-- {line}\n{said}"] * bool(bad)
    print("".join(wrong), end="")
    print(f"{passed} passed, {failed} failed")
    return 1 if failed else 0


if __name__ == "__main__":
    sys.exit(main())
