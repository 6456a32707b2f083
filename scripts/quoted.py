#!/usr/bin/env -S python3 -B
"""Sees that documents and comments show code as it is compiled: scripts/quoted.py

README.md shows the whole of crates/ns_account/src/main.rt. Each piece of Rust in docs/USING.md, and each in the
comments of a source, stands in the code of a source of this repository, comments and white space aside. The gate
compiles all of it. What stands in none is told, with status 1, and so is a piece in comments that isn't marked as Rust.
"""
import glob
import os
import re
import sys

os.chdir(f"{os.path.dirname(os.path.realpath(__file__))}/..")


def read(path):
    with open(path, encoding="utf-8") as file:
        return file.read()


def pieces(text):
    """The pieces of Rust in a document, and whether there is any other fence in it."""
    fences = re.findall(r"^(```[^\n]*)\n(.*?)^```$", text, re.M | re.S)
    return [piece for fence, piece in fences if fence == "```rust"], any(fence != "```rust" for fence, _ in fences)


def comments(source):
    """The documentation that stands in a source's comments."""
    lines = [line.strip() for line in source.splitlines()]
    return "\n".join(re.sub(r"^//[!/] ?", "", line) for line in lines if re.match("//[!/]", line)) + "\n"


def code(text):
    """The words and signs of a text, each on a line of its own: without comments, and without the comma behind the last
    of several lines, which depends on the layout."""
    texts = r'(?s:"(?:\\.|[^"\\])*"|\'(?:\\.|[^\'\\])\')'  # and characters
    bare = re.sub(rf"({texts})|//[^\n]*", r"\1", text)
    signs = "\n".join(re.findall(rf"{texts}|\w+|\S", bare))
    return re.sub(r"\n,\n([)}\]])", r"\n\1", f"\n{signs}\n")


sources = {path: read(path) for path in sorted(glob.glob("crates/*/src/**/*.rt", recursive=True))}
compiled = [code(source) for source in sources.values()]
shown = [("docs/USING.md", piece) for piece in pieces(read("docs/USING.md"))[0]]
wrong = []
for path, source in sources.items():
    rust, is_other = pieces(comments(source))
    shown += [(path, piece) for piece in rust]
    if is_other:
        wrong.append((path, "a piece that isn't marked as Rust\n"))
wrong += [(path, piece) for path, piece in shown if not any(code(piece) in it for it in compiled)]
if sources["crates/ns_account/src/main.rt"] not in pieces(read("README.md"))[0]:
    wrong.append(("README.md", "crates/ns_account/src/main.rt\n"))
for path, piece in wrong:
    print(f"NOT SHOWN AS IT IS, in {path}: {piece.splitlines()[0]}")
if wrong:
    sys.exit(1)
print(f"shown as they are: the program in README.md, {len(shown)} pieces of Rust in docs/USING.md and comments")
