#!/usr/bin/env python3
"""Brings the wrong answers (crates/*/must-fail, tests/edits) to today's spelling.

usage: tools/turn_edits.py [--check]      at the top of the repository, once, after port.py, tools/spell_names.py and tools/turn_proofs.py

The text of .antt files is turned: names by docs/spelled-names.tsv, paths, operators, projections (`(x .field)` is `x.field`, `(f x .field)` is `(f x).field`).
Bodies of Rust keep their text. What doesn't fit by these rules stands in BY_HAND, whole.
Each text that is replaced then stands once in its file; what doesn't is listed, and with --check also the words of a new text that its file hasn't otherwise.
"""
import glob
import os
import re
import sys

NAME = r'[^\s(){}.;,@"«»`]+'
TOKEN = re.compile(NAME)
PIECE = re.compile(r'"[^"]*"| \.[\w?\'-]+|\s+|[(){}\[\]]|' + NAME + r'|.')
OPERATORS = set("≡ ≢ && || < ≤ > ≥ + - * / % ^ ∷ ++ × ⊎ → ↔ = , ; : ↦ | elim record let in if".split())
BY_HAND = {
    # rt fmt joined the lines of the call
    "crates/part_body/must-fail/broken_the_other_way.edit": [
        "file: src/lib.rt",
        "old: store, t, r, up, count,",
        "new: store, t, r, !up, count,",
    ],
    # port.py joined the imports
    "crates/standard/must-fail/multiples_compound.edit": [
        "file: specs/Tuplets.antt",
        "old: use Rattle.std.specs.Prelude.{ℕ, zero, suc, ◌+◌, Bool,",
        "new: use Rattle.std.specs.Prelude.{ℕ, zero, suc, ◌+◌, ◌%◌, Bool,",
        "file: specs/Tuplets.antt",
        "old: compound m = (eqb m.0 6 || eqb m.0 9 || eqb m.0 12) && eqb m.1 8",
        "new: compound m = (eqb m.0 6 || eqb m.0 9 || eqb (m.0 % 3) 0) && eqb m.1 8",
    ],
    # clauses of Rust
    "crates/tally_run/must-fail/scratch_untouched.edit": [
        "file: src/lib.rt",
        "old: scratch.new ≡ scratch_left input.now scratch.old",
        "new: scratch.new ≡ scratch.old",
    ],
    "crates/token_cursors/must-fail/token_read_behind.edit": [
        "file: src/lib.rt",
        "old: (result ≡ (effected_for cursor.old.at (token_of edition (drop cursor.old.at line.now))).effect)",
        "new: (result ≡ (effected_for cursor.new.at (token_of edition (drop cursor.new.at line.now))).effect)",
    ],
    "tests/edits/tally_run/out_kept_from_its_second_byte.edit": [
        "file: src/lib.rt",
        "old: drop result out.new ≡ drop result out.old",
        "new: drop 1 out.new ≡ drop 1 out.old",
    ],
}


def read(p):
    with open(p, encoding="utf-8") as f:
        return f.read()


def names():
    with open("docs/spelled-names.tsv", encoding="utf-8") as f:
        return dict(line.rstrip("\n").split("\t") for line in f)


TABLE = names()
LIBRARY = {"getD": "get_or", "getElem?": "get_elem?"}


def spelled(w):
    """As tools/spell_names.py spells a name; port.py itself turned some, which the table lacks."""
    w = re.sub(r"(?<=[a-z0-9])[A-Z]", lambda m: "_" + m[0].lower(), w)
    return w.replace("-", "_") if re.match(r"[a-z]", w) else w


def words(text):
    return set(re.split(r"[\s(){}.;,@\"«»`]+", text))


def word(w, here):
    """The word of today for `w` in a file whose words are `here`."""
    if w in LIBRARY:
        return LIBRARY[w]
    w = w.replace("\u2032", "'")
    for new in (TABLE.get(w, w), spelled(w)):
        if new in here:
            return new
    return TABLE.get(w, w)


def tight(text):
    """Projections written tight: `(x .a .b)` is `x.a.b`, `(f x .a)` is `(f x).a`."""
    stack = [[]]
    # a frame is a list of pieces; `run` says where the operand that is being read begins
    runs = [0]
    for m in PIECE.finditer(text):
        p = m[0]
        top = stack[-1]
        if p in "([{":
            stack.append([])
            runs.append(0)
        elif p in ")]}" and len(stack) > 1:
            inside = "".join(stack.pop())
            runs.pop()
            top = stack[-1]
            opened = {")": "(", "]": "[", "}": "{"}[p]
            if p == ")" and re.fullmatch(r"(?:" + NAME + r"|\([^()]*\))(?:\.[\w?'-]+)+", inside) and not inside.endswith("."):
                top.append(inside)
            else:
                top.append(opened + inside + p)
        elif re.fullmatch(r" \.[\w?'-]+", p):
            run = top[runs[-1]:]
            head = "".join(run).lstrip()
            lead = "".join(run)[: len("".join(run)) - len(head)]
            if not head:
                top.append(p)
                continue
            if re.search(r"\s", re.sub(r"\([^()]*(?:\([^()]*(?:\([^()]*\)[^()]*)*\)[^()]*)*\)", "", head)):
                head = "(" + head + ")"
            top[runs[-1]:] = [lead, head + p[1:]]
        else:
            top.append(p)
            if p in OPERATORS or p.strip() and not re.match(r'[\w"\[◌]', p):
                runs[-1] = len(top)
    while len(stack) > 1:
        # an unclosed parenthesis: the text is a part of a clause
        inside = "".join(stack.pop())
        stack[-1].append("(" + inside)
    return "".join(stack[0])


def ghost(text, here):
    text = re.sub(r"Rattle\u00b7(\w+)(?:\u00b7(specs|proofs))?\.(?:\2\.)?", lambda m: "Rattle." + m[1] + "." + (m[2] + "." if m[2] else ""), text)
    text = re.sub(r"(?<![\w'◌])_([^\w\s{},.()]+)_(?![\w'])", "◌\\1◌", text)
    return tight(TOKEN.sub(lambda m: word(m[0], here), text))


def edits():
    """(edit's path, the crate it changes)"""
    for path in sorted(glob.glob("crates/*/must-fail/*.edit")):
        yield path, path.split(os.sep)[1]
    for path in sorted(glob.glob("tests/edits/*/*.edit")):
        yield path, path.split(os.sep)[2]


def turned(path, crate):
    if path in BY_HAND:
        head = [line for line in read(path).split("\n") if not re.match(r"(file|old|new):", line) and line]
        return "\n".join(head + BY_HAND[path]) + "\n"
    out, file = [], ""
    for line in read(path).split("\n"):
        kind, colon, text = line.partition(":")
        if kind == "file":
            file = text.strip()
        elif kind in ("old", "new") and colon and file.endswith(".antt"):
            line = kind + ":" + ghost(text, words(read(os.path.join("crates", crate, file))))
        out.append(line)
    return "\n".join(out)


def fits(crate, text):
    """What of an edit doesn't fit."""
    texts, file, old, bad = {}, None, None, []
    for line in text.split("\n"):
        if line.startswith("file: "):
            file = os.path.join("crates", crate, line[len("file: "):])
            if file not in texts:
                texts[file] = read(file) if os.path.exists(file) else ""
        elif line.startswith("old: "):
            old = line[len("old: "):]
        elif line.startswith("new:"):
            new = line[len("new:"):].removeprefix(" ")
            n = texts[file].count(old)
            if n != 1:
                bad.append(f"stands {n} times in {file}: {old}")
            texts[file] = texts[file].replace(old, new)
    if all(t == (read(f) if os.path.exists(f) else "") for f, t in texts.items()):
        bad.append("changes nothing")
    return bad


def strange(crate, text):
    """Words of an edit's new texts that stand nowhere in its file."""
    file, found = None, []
    for line in text.split("\n"):
        if line.startswith("file: "):
            file = os.path.join("crates", crate, line[len("file: "):])
        elif line.startswith("new:") and os.path.exists(file):
            found += sorted(w for w in words(re.sub(r'"[^"]*"', "", line[len("new:"):])) - words(read(file)) if w)
    return found


def main():
    changed = open_ = 0
    for path, crate in edits():
        before = read(path)
        after = turned(path, crate)
        for b in fits(crate, after):
            open_ += 1
            print(f"{path}: {b}")
        if "--check" in sys.argv and strange(crate, after):
            print(path, "new words:", *strange(crate, after))
        if after != before:
            changed += 1
            if "--check" not in sys.argv:
                with open(path, "w", encoding="utf-8") as f:
                    f.write(after)
    print(changed, "edits changed,", open_, "do not fit")


if __name__ == "__main__":
    main()
