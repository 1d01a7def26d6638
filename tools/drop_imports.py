#!/usr/bin/env python3
"""Drops, from the `use` lines of proof files, the names that the file does not have anywhere else.

usage: tools/drop_imports.py CRATE..      at the top of the repository

It goes by text, in seconds, and takes only what stands nowhere else in the file; `rt tidy` in a crate that proves finds the rest.
"""
import os
import re
import sys

WORD = r"[^\s(){}.;,@\"«»]+"
LINE = re.compile(r"(?m)^use (\S+?)\.\{([^{}]*)\}$")


def is_used(name, rest):
    name = name.split(" as ")[-1].strip()
    if "◌" in name and name in rest:
        return True
    parts = [p for p in name.split("◌") if p] if "◌" in name else [name]
    return all(re.search(r"(?<![^\s(){}.;,@\"«»\[\]|])" + re.escape(p) + r"(?![^\s(){}.;,@\"«»\[\]|])", rest) for p in parts)


def pruned(text):
    code = re.sub(r"--[^\n]*", "", text)
    rest = "\n".join(line for line in code.split("\n") if not line.startswith(("use ", "pub use ")))
    modules = re.findall(r"(?m)^use (\S+)(?: as (\S+))?$", code)

    def one(m):
        kept = [n for n in m[2].split(", ") if is_used(n, rest)]
        return f"use {m[1]}.{{{', '.join(kept)}}}" if kept else "\0"

    out = LINE.sub(one, text)
    return "\n".join(line for line in out.split("\n") if line != "\0")


def main():
    changed = 0
    for crate in sys.argv[1:]:
        for folder, _, files in os.walk(f"crates/{crate}/proofs"):
            for f in files:
                if f.endswith(".antt"):
                    p = os.path.join(folder, f)
                    with open(p, encoding="utf-8") as it:
                        text = it.read()
                    new = pruned(text)
                    if new != text:
                        changed += 1
                        with open(p, "w", encoding="utf-8") as it:
                            it.write(new)
    print(changed, "files")


main()
