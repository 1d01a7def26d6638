#!/usr/bin/env python3
"""Spells this repository's own definitions and lemmas as today's Rattle spells names: words in snake case, types and modules in camel case.

usage: tools/spell_names.py [--check]      at the top of the repository, once, right after port.py

A name that a specs/ or proofs/ file declares and that begins with a lower-case letter gets underscores: `noteCount` and `note-count` become `note_count`.
A name that begins with a capital keeps its dashes, and its words get underscores: `All-getD` becomes `All-get_or`.
The library's `getD` is `get_or`, in the repository's names too. A prime is an apostrophe.
Only ghost text changes: .antt files, the clauses and `ghost use` lines of .rt files, and names between backquotes in comments and in pages.
Names of Rust, fields that Rattle makes, strings, inputs and outputs stay. What would fall together is listed, and gets the name that SPECIAL gives it.
"""
import os
import re
import sys

NAME = r'[^\s(){}.;,@"«»`]+'
TOKEN = re.compile(NAME)
DECLARED = re.compile(r"(?m)^( *)((?:(?:pattern|unfoldable|abbrev|pub|axiom|open) +)*)(" + NAME + r")((?: \{[^{}\n]*\})*) :(?=[ \n])")
HEAD = re.compile(r"(?m)^ *((?:pub|unfoldable|abbrev) +)*(record|data|ruleset) +(" + NAME + r")")
RULES = re.compile(r"(?m)^ *(?:pub +)?ruleset +(" + NAME + r")")
USE = re.compile(r"\buse ([^\s;{]+?)(\.?\{[^;{}]*?\})?(?: as ([^\s;]+))?(?=;|[ \t]*$)", re.M)
COMMENT = re.compile(r"--[^\n]*")
SPECIAL = {}


def files(root, ends):
    for folder, dirs, names in os.walk(root):
        dirs[:] = sorted(d for d in dirs if d not in ("out", ".git", "target", "__pycache__"))
        for f in sorted(names):
            if f.endswith(ends):
                yield os.path.join(folder, f)


def read(p):
    with open(p, encoding="utf-8") as f:
        return f.read()


def spelled(name):
    if name in SPECIAL:
        return SPECIAL[name]
    new = name.replace("\u2032", "'")
    new = re.sub(r"(?<![A-Za-z])getD(?![a-z])", "get_or", new)
    new = re.sub(r"(?<=[a-z0-9])[A-Z]", lambda m: "_" + m[0].lower(), new)
    if not re.match(r"[A-Z]", new):
        new = new.replace("-", "_")
    elif "-" not in new:
        new = name.replace("\u2032", "'")
    return new


def is_own(path):
    steps = path.split(".")
    return steps[0] == "Rattle" and len(steps) > 1 and os.path.isdir(os.path.join("crates", steps[1]))


def declared():
    names, fields = set(), set()
    for p in files("crates", ".antt"):
        text = COMMENT.sub("", read(p))
        for m in DECLARED.finditer(text):
            name = m[3]
            if "◌" in name or name in ("let", "in", "where", "λ", "|", "→") or not re.match(r"[A-Za-z]", name):
                continue
            names.add(name)
            if m[1]:
                fields.add(name)
        for m in RULES.finditer(text):
            names.add(m[1])
    return names, fields


def imported(text):
    """The names that a file brings in from a library, and the names of own modules that it can qualify by."""
    others, modules = set(), set()
    for path, items, alias in USE.findall(text):
        if items:
            words = [w for w in TOKEN.findall(items) if w != "as"]
            if not is_own(path):
                others.update(words)
        elif is_own(path):
            modules.add(alias or path.split(".")[-1])
    return others, modules


class Speller:
    def __init__(self):
        self.names, self.fields = declared()
        by_new = {}
        for n in sorted(self.names):
            by_new.setdefault(spelled(n), []).append(n)
        self.table = {}
        for new, olds in by_new.items():
            # a lemma that would have its function's name ends in _lem
            # (port.py gave some lemmas underscores already)
            lemmas = [o for o in olds if "-" in o] or [o for o in olds if o == new]
            lemmas = lemmas if len(olds) > 1 else []
            for o in olds:
                n = new + "_lem" if o in lemmas else new
                if n != o:
                    self.table[o] = n
        self.fields &= set(self.table)

    def turn(self, text, others, modules):
        """Turns the words of antt's text."""
        out, at = [], 0
        for m in TOKEN.finditer(text):
            word = m[0]
            new = self.table.get(word)
            if new is None:
                continue
            if text[m.start() - 1 : m.start()] == "." and m.start() > 0:
                before = re.search(r"(" + NAME + r")\.$", text[max(0, m.start() - 80) : m.start()])
                head = before and before[1]
                if not (word in self.fields or head in modules):
                    continue
            elif word in others:
                continue
            out += [text[at : m.start()], new]
            at = m.end()
        return "".join(out) + text[at:]

    def quoted(self, text):
        """Turns names between backquotes."""
        def one(m):
            return "`" + TOKEN.sub(lambda w: self.table.get(w[0], w[0]), m[1]) + "`"
        return re.sub(r"`([^`\n]+)`", one, text)

    def antt(self, text):
        others, modules = imported(COMMENT.sub("", text))
        out, at = [], 0
        for m in COMMENT.finditer(text):
            out += [self.turn(text[at : m.start()], others, modules), self.quoted(m[0])]
            at = m.end()
        return "".join(out) + self.turn(text[at:], others, modules)

    def rust(self, text):
        others, modules = imported(text)
        spans = []
        for m in re.finditer(r"(?m)^\s*ghost use Rattle[^;]*;", text):
            path = re.match(r"\s*ghost use ([^\s;{]+?)\.?[{;]", m[0])
            if path and is_own(path[1]):
                spans.append((m.start(), m.end()))
        for m in re.finditer(r"(?m)^\s*(requires\*?|ensures\*?|ghost|ghost invariant)\b[^\n{]*\{", text):
            depth, i = 1, m.end()
            while depth and i < len(text):
                depth += {"{": 1, "}": -1}.get(text[i], 0)
                i += 1
            spans.append((m.end(), i - 1))
        out, at = [], 0
        for a, b in sorted(spans):
            if a < at:
                continue
            out += [text[at:a], self.turn(text[a:b], others, modules)]
            at = b
        text = "".join(out) + text[at:]
        return re.sub(r"//[^\n]*", lambda m: self.quoted(m[0]), text)


def together(speller):
    """What would fall together: two old names with one new one, or a new one that some file has already."""
    by_new = {}
    for old, new in speller.table.items():
        by_new.setdefault(new, set()).add(old)
    bad = []
    for p in files("crates", ".antt"):
        text = COMMENT.sub("", read(p))
        words = set(TOKEN.findall(text))
        others, _ = imported(text)
        for w in sorted(words & set(speller.table)):
            if w in others:
                continue
            new = speller.table[w]
            rivals = (by_new[new] | {new}) - {w}
            hit = rivals & words
            if hit:
                bad.append((new, w, sorted(hit), p))
    for p in files("crates", ".rt"):
        text = read(p)
        code = re.sub(r"//[^\n]*", "", text)
        words = set(re.findall(r"[\w'-]+", code))
        parameters = set(re.findall(r"[(,]\s*(?:mut )?(\w+): ", code))
        for w in sorted(words & set(speller.table)):
            new = speller.table[w]
            if new in parameters or len((by_new[new]) & words) > 1:
                bad.append((new, w, ["a parameter in the Rust"], p))
    return bad


def main():
    speller = Speller()
    bad = together(speller)
    for b in bad:
        print("falls together:", *b)
    print(len(speller.table), "names,", len(bad), "fall together")
    if "--check" in sys.argv:
        return
    changed = 0
    for p in files("crates", (".antt", ".rt")):
        text = read(p)
        new = speller.antt(text) if p.endswith(".antt") else speller.rust(text)
        if new != text:
            changed += 1
            with open(p, "w", encoding="utf-8") as f:
                f.write(new)
    for p in list(files("docs", ".md")) + ["README.md"]:
        text = read(p)
        new = speller.quoted(text)
        if new != text:
            changed += 1
            with open(p, "w", encoding="utf-8") as f:
                f.write(new)
    with open("docs/spelled-names.tsv", "w", encoding="utf-8") as f:
        f.writelines(f"{old}\t{new}\n" for old, new in sorted(speller.table.items()))
    print(changed, "files changed")


main()
