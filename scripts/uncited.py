#!/usr/bin/env -S python3 -B
"""Lists the definitions and lemmas of specs/ and proofs/ that nothing cites: scripts/uncited.py

It reads text and no types. A name counts as cited where its own file has it outside its definition, where another
file takes it from its module, through whatever passes it on, and has it beside its `use` lines, or where the attribute
of a tactic names it in code. What a proof of Rattle's
own asks for by name (an answer, an invariant) isn't looked at.
"""
import os
import re
import sys

TOP = os.path.dirname(os.path.dirname(os.path.realpath(__file__)))
USE = re.compile(r"^(?:ghost )?(?:unfoldable )?(pub )?use ([\w.+-]+?)(?:\.\{(.*)\})?(?: as (\w+))?;?$")
DEFINED = re.compile(r"^( *)(?:unfoldable |abbrev |pub )*(record |data )?(?!let |module )([\w'-]+)(?: [({].*[)}])? : ")
WORD = re.compile(r"[\w'◌-]+")
NAMED = re.compile(r"crate::((?:proofs|specs)(?:::\w+)+)::([\w'-]+)")  # by a tactic's attribute in code


def files():
    for path, folders, names in os.walk(f"{TOP}/crates"):
        folders[:] = [it for it in folders if it not in ("out", "data", "must-fail")]
        yield from (f"{path}/{it}" for it in names if it.endswith((".antt", ".rt")))


def module_of(path):
    crate, _, rest = path.removeprefix(f"{TOP}/crates/").partition("/")
    return f"Rattle.{crate}." + rest.removesuffix(".antt").replace("/", ".")


class File:
    def __init__(self, path):
        self.path, self.module, self.taken, self.passed, self.whole, body = path, module_of(path), {}, {}, {}, []
        with open(path, encoding="utf-8") as file:
            for line in file:
                use = USE.match(line.strip())
                if not use:
                    body.append(line.split("--")[0] if path.endswith(".antt") else line)
                elif use[3] is None:
                    self.whole[use[4] or use[2].rsplit(".", 1)[-1]] = use[2]
                for pair in use[3].split(",") if use and use[3] else []:
                    name, _, alias = pair.strip().partition(" as ")
                    (self.passed if use[1] else self.taken)[alias or name] = (use[2], name)
        self.body = body
        self.words = [WORD.findall(line) for line in body]

    def definitions(self):
        """The names that it defines, each with the numbers of the lines of its definition."""
        fields = None  # how far the fields of the record above stand in
        for number, line in enumerate(self.body):
            found = DEFINED.match(line) if self.path.endswith(".antt") else None
            if fields is not None and line.strip() and len(line) - len(line.lstrip()) < fields:
                fields = None
            if found and fields is None:
                indent, name = found[1], found[3]
                fields = len(indent) + 2 if found[2] else None
                own = [number] + [at for at, it in enumerate(self.body) if it.startswith(f"{indent}{name} ") or it.startswith(f"{indent}abbrev pub {name} ")]
                yield name, set(own), line

    def has(self, name, beside=()):
        return any(name in words and at not in beside for at, words in enumerate(self.words)) or any(
            words.count(name) > 1 for at, words in enumerate(self.words) if at in beside and not DEFINED.match(self.body[at]))


def main():
    read = [File(path) for path in files()]
    by_module = {it.module: it for it in read}

    def home(module, name):
        while module in by_module and name in by_module[module].passed:
            module, name = by_module[module].passed[name]
        return module, name

    cited = set()
    for it in read:
        cited |= {home(*source) for alias, source in it.taken.items() if it.has(alias)}
        cited |= {home(module, word) for module in it.whole.values() for words in it.words for word in words}
        crate = it.module.split(".")[1]
        cited |= {home(f"Rattle.{crate}.{path.replace('::', '.')}", name) for line in it.body for path, name in NAMED.findall(line)}
    for it in read:
        asked = re.search(r"/(Answers|Invariants|Proof)\.antt$", it.path)
        for name, own, line in it.definitions():
            if not (asked and re.search(r": goal\.", line)) and (it.module, name) not in cited and not it.has(name, own):
                print(f"{os.path.relpath(it.path, TOP)}: {name}")


if __name__ == "__main__":
    sys.exit(main())
