#!/usr/bin/env python3
"""Spells the constructors, and a few names that stand in declarations of several names, as tools/spell_names.py spells the rest.

usage: tools/spell_constructors.py      at the top of the repository, once, after spell_names.py
"""
import os
import re

NAMES = """keyInHeader graceOpen graceClose repeatStart repeatBoth repeatEnd voltaBegins voltaEnds voltaAlone noVolta unitLength perByte invisibleRest invisibleBarRest barRest
braceOpen braceClose inC2 inE1 inE19A inE2 inE280 inE281 inE3 inE380 afterE0 afterED afterF0 afterF4 voiceIs measureWidth headBytes pitchBytes u16At headRow byVoice ends_lF""".split()


def spelled(name):
    return re.sub(r"(?<=[a-z0-9])[A-Z]+", lambda m: "_" + m[0].lower(), name)


TABLE = {n: spelled(n) for n in NAMES} | {"Part-inOrder": "Part-in_order", "inE19A": "in_e19a", "ends_lF": "ends_lf"}
WORD = re.compile("(?<![\\w'-])(" + "|".join(sorted(TABLE, key=len, reverse=True)) + ")(?![\\w'-])")


def main():
    changed = 0
    for top, ends in (("crates", (".antt", ".rt", ".edit")), ("tests/edits", (".edit",))):
        for folder, dirs, files in os.walk(top):
            dirs[:] = [d for d in dirs if d != "out"]
            for f in files:
                if f.endswith(ends):
                    p = os.path.join(folder, f)
                    with open(p, encoding="utf-8") as it:
                        text = it.read()
                    new = WORD.sub(lambda m: TABLE[m[1]], text)
                    changed += new != text
                    if new != text:
                        with open(p, "w", encoding="utf-8") as it:
                            it.write(new)
    # the table of names, which tools/turn_edits.py reads, follows
    rows = {}
    with open("docs/spelled-names.tsv", encoding="utf-8") as it:
        for line in it:
            old, new = line.rstrip("\n").split("\t")
            rows[old] = TABLE.get(new, new)
    for old, new in TABLE.items():
        rows.setdefault(old, new)
    with open("docs/spelled-names.tsv", "w", encoding="utf-8") as it:
        it.writelines(f"{old}\t{new}\n" for old, new in sorted(rows.items()))
    print(changed, "files changed")


main()
