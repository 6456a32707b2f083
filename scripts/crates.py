"""What crates.txt says of the crates of this repository, and work on them, each behind those below it."""
import glob
import os
import signal
import subprocess
import sys
from concurrent.futures import FIRST_COMPLETED, ThreadPoolExecutor, wait

TOP = os.path.dirname(os.path.dirname(os.path.realpath(__file__)))
PARTS = ("src", "specs", "proofs")
FAILED = 70  # EX_SOFTWARE, as ns_cli ends where it can't be built
RUNNING = set()  # the commands that work at this moment


def uses_by_crate():
    """What crates.txt says: the libraries that each crate uses, those of the kit too."""
    with open(f"{TOP}/crates.txt", encoding="utf-8") as file:
        lines = [line.partition("#")[0].partition(":") for line in file]
    return {name.split()[0]: low.split() for name, colon, low in lines if colon}


def below(name, uses):
    """The repository's own libraries that the crate stands on, each behind those below it."""
    found = []
    for it in uses[name]:
        if it in uses:
            found += [low for low in [*below(it, uses), it] if low not in found]
    return found


def sources_of(name):
    """The files of the crate that a proof of it reads, by their paths in its folder."""
    folder = f"{TOP}/crates/{name}"
    paths = [f"{at}/{file}" for part in PARTS for at, _, files in os.walk(f"{folder}/{part}") for file in files]
    return sorted(os.path.relpath(path, folder) for path in paths)


def has_tests(name):
    """Whether a source of the crate has a test."""
    for path in glob.glob(f"{TOP}/crates/{name}/src/**/*.rt", recursive=True):
        with open(path, "rb") as file:
            if b"#[test]" in file.read():
                return True
    return False


def kit():
    """The folder of the Rattle kit, by `rt`."""
    return os.path.dirname(subprocess.run(["rt", "doc"], stdout=subprocess.PIPE, text=True, check=True).stdout.strip())


def free_gibs():
    """The memory that is free, in GiB."""
    with open("/proc/meminfo", encoding="utf-8") as file:
        return next(int(line.split()[1]) for line in file if line.startswith("MemAvailable")) / 2**20


def lanes(cores_each, gibs_each, most):
    """How many crates may be worked on at once, where each takes so many cores and so much memory."""
    return int(max(1, min(most, len(os.sched_getaffinity(0)) // cores_each, free_gibs() / gibs_each)))


def said_by(folder, *command):
    """Whether a command that works in the folder went well, and what it said."""
    with subprocess.Popen(command, cwd=folder, stdin=subprocess.DEVNULL, stdout=subprocess.PIPE,
                          stderr=subprocess.STDOUT, errors="replace") as running:
        RUNNING.add(running)
        said = running.communicate()[0]
    RUNNING.discard(running)
    return running.returncode == 0, said


def in_lanes(names, uses, count, work):
    """Works on each of the crates, behind those below it, at most one in a lane. The work is told the crate and the
    lane, and answers whether it went well, and what was said. After a failure no further one begins, and those that
    have begun end. Answers what was said of the one that failed, or None."""
    todo = {it: below(it, uses) for it in names}
    free, done, running, failed = list(range(count)), set(), {}, None
    with ThreadPoolExecutor(count) as pool:
        try:
            while running or (todo and failed is None):
                for it in [it for it in todo if failed is None and done.issuperset(todo[it])][:len(free)]:
                    lane = free.pop(0)
                    del todo[it]
                    running[pool.submit(work, it, lane)] = it, lane
                for ended in wait(running, return_when=FIRST_COMPLETED).done:
                    it, lane = running.pop(ended)
                    free = sorted([*free, lane])
                    done.add(it)
                    is_well, said = ended.result()
                    if not is_well and failed is None:
                        failed = f"{it}: {said}"
        except KeyboardInterrupt:
            for it in list(RUNNING):
                it.terminate()
            raise
    return failed


def run(main):
    """Ends the process with the status that `main` answers for its words. Who interrupts it finds nothing left behind."""
    for it in (signal.SIGTERM, signal.SIGHUP):
        signal.signal(it, signal.default_int_handler)
    try:
        sys.exit(main(sys.argv[1:]))
    except KeyboardInterrupt:
        sys.exit(130)
