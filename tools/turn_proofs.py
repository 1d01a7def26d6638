#!/usr/bin/env python3
"""Turns proofs/F/Proof.antt of an older Rattle into Invariants.antt and Answers.antt, or, where its helpers speak of places, into a Proof.antt with today's names.

usage: tools/turn_proofs.py NAMES CRATE..      at the top of the repository

NAMES is the folder that `rt names NAMES` wrote: each crate's names.json has what a Proof.antt calls a place, a step and a goal, and what today's files call it.
It goes by text, once, right after port.py and spell_names.py. What it could not place it prints in a line 'look:'. rt check decides.
"""
import json
import os
import re
import sys

WORD = r"[^\s(){}.;,@\"«»]+"
PATH = re.compile(r"(?<![^\s(){};,\[])(" + WORD + r")((?:\.(?:" + WORD + r"))+)")
MARKED = re.compile(r"^((?:(?:abbrev|pub|unfoldable) +)*)(" + WORD + r")((?: \{[^{}]*\})*) :(?=[ \n]|$)")


def plain(word):
    word = word.replace("-", "_").lower()
    word = re.sub(r"_lem(?=\d*$)", "", word)
    return re.sub(r"^shr_", "shared_", word)


class Names:
    """What one function's places, steps and goals are called."""

    def __init__(self, entry, said):
        self.said = said
        self.entry = entry
        self.places = entry["places"]
        self.at = {}
        for i, p in enumerate(self.places):
            self.at.setdefault(plain(p[0]), i)
        self.needs = entry["needs"]
        self.loops = entry["loops"]

    def parent(self, i):
        name = self.places[i][1]
        if name is None:
            return None
        return self.at.get(plain(name))

    def chain(self, i):
        while i is not None:
            yield i
            i = self.parent(i)

    def walk(self, i, steps):
        """The place that `.before` leads to, and the steps behind."""
        n = 0
        while steps and steps[0] == "before":
            up = self.parent(i)
            if up is None:
                # the older check had more places: the step is found by its name
                while steps and steps[0] == "before":
                    steps, n = steps[1:], n + 1
                return i, steps, n
            i, steps, n = up, steps[1:], n + 1
        return i, steps, n

    def field(self, i, steps, arms, origin=None):
        """Today's words for the steps behind a place's value, flat."""
        head, rest = steps[0], steps[1:]
        if head in ("args", "ranges", "lifetimes", "well_formed", "well-formed"):
            return [head.replace("-", "_")] + rest
        if head in ("requires", "told"):
            pre = self.entry["pre"]
            if head == "requires" and pre and rest and rest[0].isdigit():
                n = int(rest[0]) - pre["before"]
                if 0 <= n < len(pre["fields"]):
                    return ["requires", pre["fields"][n]] + rest[1:]
            return steps
        for j in self.chain(i):
            old, new = self.places[j][2]
            if plain(old) != plain(head):
                continue
            if arms:
                best = None
                arm = self.entry["arms"][j]
                if arm:
                    for named, step, sub in arm[2]:
                        if plain(step) == plain(head) and rest[: len(sub)] == sub and (best is None or len(sub) > len(best[1])):
                            best = (named, sub)
                    # the arm as it stands at its last step
                    if best:
                        return [arm[0], best[0]] + rest[len(best[1]) :]
                for var, step in self.entry["typed"][j]:
                    if plain(step) == plain(head):
                        return ["type_inv", var] + rest
            clause = self.entry["clauses"][j]
            if clause and rest[:1] == ["ensures"] and len(rest) > 1 and rest[1].isdigit() and int(rest[1]) < len(clause["fields"]):
                rest = ["ensures", clause["fields"][int(rest[1])]] + rest[2:]
            return [new] + rest
        if origin is not None and origin != i:
            return self.field(origin, steps, arms)
        self.said(f"no step {head} at {self.places[i][0]}")
        return steps

    def by_name(self, i):
        return self.entry["places_by_name"][i]


def split_top(text):
    """The words of an application, parentheses kept whole."""
    out, depth, start = [], 0, None
    for k, ch in enumerate(text):
        if ch in "([{":
            if depth == 0 and start is None:
                start = k
            depth += 1
        elif ch in ")]}":
            depth -= 1
            if depth == 0 and (k + 1 == len(text) or text[k + 1].isspace()):
                out.append(text[start : k + 1])
                start = None
        elif ch.isspace() and depth == 0:
            if start is not None:
                out.append(text[start:k])
                start = None
        elif start is None:
            start = k
    if start is not None:
        out.append(text[start:])
    return out


def explicit_types(sig):
    """The types of a signature's arguments, by their order: (names, type) or (None, type); implicit ones are left out."""
    parts, depth, start = [], 0, 0
    k = 0
    while k < len(sig):
        ch = sig[k]
        if ch in "([{":
            depth += 1
        elif ch in ")]}":
            depth -= 1
        elif ch == "→" and depth == 0:
            parts.append(sig[start:k].strip())
            start = k + 1
        k += 1
    out = []
    for p in parts:
        # several groups may stand side by side: (a : A) (b : B) →
        groups = split_top(p) if p.startswith(("(", "{")) else [p]
        if len(groups) > 1 and not all(g[0] in "({" for g in groups):
            groups = [p]
        for g in groups:
            if g.startswith("{"):
                continue
            m = re.match(r"^\(([^:()]+) : (.*)\)$", g, re.S)
            if m:
                for n in m[1].split():
                    out.append((n, m[2].strip()))
            else:
                out.append((None, g))
    return out


class Proof:
    def __init__(self, crate, path, names, say):
        self.crate, self.path, self.names, self.say = crate, path, names, say
        with open(f"crates/{crate}/proofs/{path}/Proof.antt", encoding="utf-8") as f:
            self.text = f.read()
        self.parse()

    def parse(self):
        lines = self.text.split("\n")
        k = 0
        self.head = []
        while k < len(lines) and lines[k].startswith("--"):
            self.head.append(lines[k])
            k += 1
        self.uses, self.decls = [], []
        pending = []
        while k < len(lines):
            line = lines[k]
            if line.startswith("use "):
                self.uses.append(line)
                k += 1
                continue
            if not line.strip():
                k += 1
                continue
            if line.startswith("--"):
                pending.append(line)
                k += 1
                continue
            m = MARKED.match(line)
            if m and not self.is_clause_of_last(line):
                body = [line]
                k += 1
                while k < len(lines) and (lines[k].startswith((" ", "\t")) and lines[k].strip()):
                    body.append(lines[k])
                    k += 1
                self.decls.append({"marks": m[1], "name": m[2], "implicit": m[3], "sig": "\n".join(body)[m.end() :].strip(), "comment": pending, "unfolding": None, "clauses": []})
                pending = []
                continue
            if not self.decls:
                raise ValueError("a line before any declaration: " + line)
            if line.startswith("unfolding "):
                block = [line]
                k += 1
                while k < len(lines) and lines[k].startswith(" "):
                    block.append(lines[k])
                    k += 1
                self.decls[-1]["unfolding"] = "\n".join(block)
                continue
            body = [line]
            k += 1
            while k < len(lines) and (lines[k].startswith((" ", "\t")) or not lines[k].strip()):
                if not lines[k].strip():
                    # a blank line ends a clause unless an indented line follows
                    if k + 1 < len(lines) and lines[k + 1].startswith(" "):
                        body.append("")
                        k += 1
                        continue
                    break
                body.append(lines[k])
                k += 1
            self.decls[-1]["clauses"].append("\n".join(body))

    def is_clause_of_last(self, line):
        return False

    def turn_body(self, text, places, arms, keep_before):
        """Turns the paths of a body. places: variable -> place index."""
        places = dict(places)
        # a local name for a place, or for what a match told, is written out
        locals_ = re.compile(r"\blet (" + WORD + r") = (" + WORD + r")((?:\." + WORD + r")*) in[ \n]\s*")
        at = 0
        while not keep_before:
            m = locals_.search(text, at)
            if m is None:
                break
            at = m.end()
            if m[2] not in places:
                continue
            i, rest, _ = self.names.walk(places[m[2]], m[3].split(".")[1:])
            behind = text[m.end() :]
            if rest and not (rest[-1] == "given" and len(rest) == 2):
                continue
            put = m[2] + m[3]
            behind = re.sub(r"(?<![^\s(){};,\[])" + re.escape(m[1]) + r"(?=\.)", lambda _: put, behind)
            if re.search(r"(?<![^\s(){};,\[])" + re.escape(m[1]) + r"(?![^\s(){};,])", behind):
                continue
            text = text[: m.start()] + behind
            at = m.start()
        for m in re.finditer(r"\blet (" + WORD + r") = (" + WORD + r")((?:\.before)*) in\b", text):
            if m[2] in places:
                i, _, _ = self.names.walk(places[m[2]], m[3].split(".")[1:])
                places[m[1]] = i

        def one(m):
            var, steps = m[1], m[2].split(".")[1:]
            if var not in places:
                return m[0]
            i, rest, n = self.names.walk(places[var], steps)
            if not rest:
                return ".".join([var] + ["before"] * (n + 1 if keep_before == "view" else n)) if keep_before else var
            return ".".join([var] + self.names.field(i, rest, arms, places[var]))

        return PATH.sub(one, text)

    def place_of(self, sig):
        """Which explicit argument of a helper is a place, and which place."""
        found = {}
        for k, (name, ty) in enumerate(explicit_types(sig)):
            m = re.match(r"^tie\.(" + WORD + r")", ty)
            if m and plain(m[1]) in self.names.at:
                found[k] = (name, self.names.at[plain(m[1])])
        return found

    def clause_parts(self, clause, name):
        """A clause's parameters and its body."""
        m = re.match(re.escape(name) + r"((?: +(?:" + WORD + r"|\([^=]*?\)|\{[^=]*?\}))*) =(?=[ \n])", clause)
        if not m:
            return None
        return split_top(m[1].strip()) if m[1].strip() else [], clause[m.end() :]

    def turn(self):
        n = self.names
        final = [d for d in self.decls if "tie.close" in "\n".join(d["clauses"])]
        if len(final) != 1:
            return self.say("no tie.close: by hand")
        final = final[0]
        body = "\n".join(final["clauses"])
        m = re.search(r"\(tie\.spec\b", body) or re.search(r"tie\.spec\b", body)
        if not m:
            return self.say("no tie.spec: by hand")
        start = m.start()
        if body[start] == "(":
            depth, k = 0, start
            while True:
                depth += {"(": 1, ")": -1}.get(body[k], 0)
                k += 1
                if depth == 0:
                    break
            words = split_top(body[start + 1 : k - 1])[1:]
        else:
            words = split_top(body[m.end() :])
        loops = n.loops
        given, answers = words[: 2 * len(loops)], words[2 * len(loops) :]
        by = {d["name"]: d for d in self.decls}
        if len(answers) != len(n.needs):
            self.say(f"{len(answers)} answers and {len(n.needs)} goals")
            of = {plain(old): k for k, (old, new) in enumerate(n.needs)}
            put = ["(λ c. search rules)"] * len(n.needs)
            for w in answers:
                if w in by:
                    m = re.match(r"tie\.Need-(" + WORD + ")", by[w]["sig"])
                    if m and plain(m[1]) in of:
                        put[of[plain(m[1])]] = w
                    else:
                        self.say(f"no goal for {w} : {by[w]['sig'][:80]}")
                elif "search rules" not in w or len(w) > 30:
                    self.say(f"no goal for the answer {w[:100]}")
            answers = put
        invariants = {w: i for i, w in enumerate(given)}
        of_need = {}
        for k, w in enumerate(answers):
            if w in by:
                of_need.setdefault(w, []).append(k)
        helpers = [d for d in self.decls if d is not final and d["name"] not in of_need and d["name"] not in invariants]
        speaking = [d for d in helpers if "tie." in d["sig"]]
        # a helper that speaks of a place becomes a local name of each goal that cites it
        self.inlined = {}
        grew = True
        while grew:
            grew = False
            for d in helpers:
                if d["name"] in self.inlined:
                    continue
                cites = any(self.cites(x, "\n".join(d["clauses"] + [d["sig"]])) for x in self.inlined)
                if d in speaking or cites:
                    if len(d["clauses"]) != 1 or self.clause_parts(d["clauses"][0], d["name"]) is None:
                        self.say(f"helper {d['name']}: by hand")
                        return self.as_proof(final, given, answers, of_need, invariants, helpers)
                    self.inlined[d["name"]] = d
                    grew = True
        helpers = [d for d in helpers if d["name"] not in self.inlined]
        return self.as_answers(final, given, answers, of_need, invariants, helpers, by)

    def cites(self, name, text):
        return re.search(r"(?<![^\s(){};,\[])" + re.escape(name) + r"(?![^\s(){}.;,])", text)

    def inline(self, text, var):
        """A goal's body with the helpers that speak of places as local names: the text, and what it unfolds."""
        lets, unfolds, seen = [], [], []

        place_words = {x for x, d in self.inlined.items() if re.search(r"→ tie\.\S+$|→ tie\.\S+ (?:invariant|decreases)\S*(?: \S+)?$", " ".join(d["sig"].split()))}

        def strip(t, variables):
            # a place that is led to by name is the goal's own; then `(h c.before)` and `h c.before` become `h`
            vs = "(?:" + "|".join(map(re.escape, sorted(variables, key=len, reverse=True))) + r")(?:\.before)*(?![^\s(){};,])"
            for x in place_words:
                t = re.sub(r"\(" + re.escape(x) + r" (" + vs + r")\)", r"\1", t)
                t = re.sub(r"(?<![^\s(){};,\[])" + re.escape(x) + r" (" + vs + ")", r"\1", t)
            rest = sorted((x for x in self.inlined if x not in place_words), key=len, reverse=True)
            if rest:
                hs = "(" + "|".join(map(re.escape, rest)) + ")"
                t = re.sub(r"\(" + hs + " " + vs + r"\)|(?<![^\s(){};,\[])" + hs + " " + vs, lambda m: m[1] or m[2], t)
            return t

        def strip_places(t):
            vs = re.escape(var) + r"(?:\.before)*(?![^\s(){};,])"
            for x in place_words:
                t = re.sub(r"\(" + re.escape(x) + r" (" + vs + r")\)", r"\1", t)
                t = re.sub(r"(?<![^\s(){};,\[])" + re.escape(x) + r" (" + vs + ")", r"\1", t)
            return t

        def visit(name):
            if name in seen:
                return
            seen.append(name)
            d = self.inlined[name]
            params, body = self.clause_parts(d["clauses"][0], name)
            types = explicit_types(d["sig"])
            at = self.place_of(d["sig"])
            places = {params[k]: i for k, (_, i) in at.items() if k < len(params)}
            sig = d["sig"]
            names_in_sig = {n: i for n, i in at.values() if n}
            full = sig
            k0 = min(at) if at else None
            for x in self.inlined:
                if x != name and x not in place_words and (self.cites(x, body) or self.cites(x, sig)):
                    visit(x)
            body = strip(body, set(places) | {var})
            sig = strip(sig, set(names_in_sig) | set(places) | {var})
            body = self.turn_body(body, places, True, False)
            sig = self.turn_body(sig, names_in_sig, True, False)
            for v in places:
                if v != var:
                    body = re.sub(r"(?<![^\s(){};,\[])" + re.escape(v) + r"(?=\.)", var, body)
            for v in names_in_sig:
                if v != var:
                    sig = re.sub(r"(?<![^\s(){};,\[])" + re.escape(v) + r"(?=\.)", var, sig)
            # the type without the place
            rest = re.sub(r"^\(" + WORD + r" : tie\.[^()]*\)\s*(→\s*)?", "", sig) if k0 == 0 else sig
            rest = re.sub(r"^tie\.\S+(?: (?:invariant|decreases)\S*)*\s*→\s*", "", rest)
            others = [q for k, q in enumerate(params) if k not in at]
            body = body.strip()
            if others:
                body = "λ " + " ".join(others) + ". " + body
            lets.append(f"    let {name} : {' '.join(rest.split())} = {body} in")
            if d["unfolding"]:
                unfolds.append(d["unfolding"])

        # local names of places are written out first
        while True:
            text = strip_places(text)
            m = re.search(r"\blet (" + WORD + r") = (" + re.escape(var) + r"(?:\.before)*) in[ \n]\s*", text)
            if m is None:
                break
            text = text[: m.start()] + re.sub(r"(?<![^\s(){};,\[])" + re.escape(m[1]) + r"(?![^\s(){}.;,])", m[2], text[m.end() :])
        for x in self.inlined:
            if x not in place_words and self.cites(x, text):
                visit(x)
        return strip(text, {var} | set(re.findall(r"\blet (" + WORD + r") = " + re.escape(var) + r"(?:\.before)* in", text))), lets, unfolds

    def loop_vars(self, i):
        """For each parameter of an invariant of the loop i, what stands for it in today's form."""
        (old, new), variables = self.names.loops[i]
        changed = self.names.entry["changed"][i]
        out = []
        for v, c in zip(variables, changed):
            out.append(f"l.initial.{v}" if c else f"l.{v}")
        out += [f"l.{v}" for v, c in zip(variables, changed) if c]
        return new, out

    def as_answers(self, final, given, answers, of_need, invariants, helpers, by):
        n = self.names
        where = f"Rattle.{self.crate}.proofs.{self.path.replace('/', '.')}"
        inv = []
        for k, w in enumerate(given):
            i, measure = divmod(k, 2)
            new, stand = self.loop_vars(i)
            word = ("decreases-" if measure else "invariant-") + new
            d = by.get(w)
            if d is None:
                m = re.match(r"^\(λ (.*?)\. (.*)\)$", w, re.S)
                if not m:
                    return self.say(f"invariant {w}: by hand")
                params, text = m[1].split(), " " + m[2]
                comment = []
            else:
                if len(d["clauses"]) != 1:
                    return self.say(f"invariant {w} has {len(d['clauses'])} clauses: by hand")
                parts = self.clause_parts(d["clauses"][0], w)
                if parts is None:
                    return self.say(f"invariant {w}: by hand")
                params, text = parts
                comment = d["comment"]
            if len(params) > len(stand):
                return self.say(f"invariant {w}: {len(params)} parameters, {len(stand)} variables")
            if len(params) < len(stand):
                self.say(f"invariant {w}: only {len(params)} of {len(stand)} parameters")
                return None
            put = {p: s for p, s in zip(params, stand) if p != "_"}
            text = re.sub(r"(?<![^\s(){};,\[λ])(" + WORD + r")", lambda m: put.get(m[1], m[1]), text)
            unf = (d["unfolding"] + "\n") if d and d["unfolding"] else ""
            inv.append("\n".join(comment + [f"abbrev pub {word} : goal.{word}", unf + f"{word} l =" + text]))
        used_in_inv = [h for h in helpers if any(re.search(r"(?<![^\s(){};,\[])" + re.escape(h["name"]) + r"(?![^\s(){}.;,])", t) for t in inv)]
        grew = True
        while grew:
            grew = False
            for h in helpers:
                if h not in used_in_inv and any(re.search(r"(?<![^\s(){};,\[])" + re.escape(h["name"]) + r"(?![^\s(){}.;,])", "\n".join(u["clauses"] + [u["sig"]])) for u in used_in_inv):
                    used_in_inv.append(h)
                    grew = True
        out = []
        for h in helpers:
            if h not in used_in_inv:
                out.append(self.shown(h, h["marks"], h["name"], h["sig"], h["clauses"]))
        done = set()
        for k, w in enumerate(answers):
            old, new = n.needs[k]
            place = n.at.get(plain(n.entry["asked_at"][k][0]))
            if w in by:
                d = by[w]
                if len(d["clauses"]) != 1 or len(of_need[w]) > 1 and w in done and False:
                    return self.say(f"goal {w} has {len(d['clauses'])} clauses: by hand")
                parts = self.clause_parts(d["clauses"][0], w)
                if parts is None:
                    return self.say(f"goal {w}: by hand")
                params, text = parts
                comment, unf = d["comment"], d["unfolding"]
            else:
                inner = w[1:-1].strip() if w.startswith("(") else w
                m = re.match(r"^λ ([^.]*)\. (.*)$", inner, re.S)
                if not m:
                    self.say(f"answer {w}: by hand")
                    continue
                params, text = m[1].split(), " " + m[2]
                comment, unf = [], None
                if re.fullmatch(r"\s*search rules\s*", text):
                    continue
            if "κs" in params:
                params = [p for p in params if p != "κs"]
                if "κs" in text:
                    self.say(f"{w} uses κs")
            places = {params[0]: place} if params and params[0] != "_" and place is not None else {}
            lets, more = [], []
            if self.inlined and params:
                text, lets, more = self.inline(text, params[0])
            text = self.turn_body(text, places, True, False)
            if lets:
                text = "\n" + "\n".join(lets) + ("\n    " + text.strip() if "\n" not in text.strip("\n") else "\n" + text.lstrip("\n"))
            if more:
                words = [w for u in [unf or ""] + more for w in u.split()[1:]]
                unf = "unfolding " + " ".join(dict.fromkeys(words))
            out.append("\n".join(comment + [f"pub {new} : goal.{new}"] + ([unf] if unf else []) + [" ".join([new] + params) + " =" + text]))
        folder = f"crates/{self.crate}/proofs/{self.path}"
        uses = [u for u in self.uses if not re.search(r"\.(Statement|Tie)\b", u)]
        os.remove(f"{folder}/Proof.antt")
        if inv:
            body = [self.shown(h, "abbrev pub " if "abbrev" in h["marks"] else "pub ", h["name"], h["sig"], h["clauses"]) for h in helpers if h in used_in_inv]
            with open(f"{folder}/Invariants.antt", "w", encoding="utf-8") as f:
                f.write("\n".join(self.head + uses + [f"use {where}.Given as goal", ""]) + "\n" + "\n\n".join(body + inv) + "\n")
        if out:
            more = [f"use {where}.Invariants.{{{', '.join(h['name'] for h in used_in_inv)}}}"] if used_in_inv else []
            head = [] if inv and not self.head else self.head
            with open(f"{folder}/Answers.antt", "w", encoding="utf-8") as f:
                f.write("\n".join(head + uses + more + [f"use {where}.Goals as goal", ""]) + "\n" + "\n\n".join(out) + "\n")
        if not os.listdir(folder):
            os.rmdir(folder)
        return "answers"

    def shown(self, d, marks, name, sig, clauses):
        return "\n".join(d["comment"] + [f"{marks}{name}{d['implicit']} : {sig}"] + ([d["unfolding"]] if d["unfolding"] else []) + clauses)

    def as_proof(self, final, given, answers, of_need, invariants, helpers):
        n = self.names
        names = {}
        for i, ((old, new), _) in enumerate(n.loops):
            names[plain("invariant-" + old)] = "invariant-" + new
            names[plain("decreases-" + old)] = "decreases-" + new
        for old, new in n.needs:
            names.setdefault(plain("Need-" + old), "Need-" + new)
        for i, p in enumerate(n.places):
            names.setdefault(plain(p[0]), n.by_name(i))

        def tie(text):
            def one(m):
                new = names.get(plain(m[1]))
                if new is None:
                    if m[1] not in ("spec", "close"):
                        self.say(f"tie.{m[1]}: by hand")
                    return m[0]
                return "tie." + new

            return re.sub(r"\btie\.(" + WORD + r")", one, text)

        out = []
        for d in self.decls:
            if d is final:
                clauses = d["clauses"]
                turned = []
                for c in clauses:
                    # the place of each written answer
                    for k, w in enumerate(answers):
                        if w in of_need or w.startswith("(λ") is False or "search rules" in w and len(w) < 30:
                            continue
                        m = re.match(r"^\(λ ([^.\s]*)", w)
                        place = n.at.get(plain(n.entry["asked_at"][k][0]))
                        if m and place is not None:
                            c = c.replace(w, self.turn_body(w, {m[1]: place}, False, True), 1)
                    turned.append(c)
                name = self.path.split("/")[-1] + "_spec"
                turned = [re.sub(r"^" + re.escape(d["name"]) + r"(?= =)", name, t) for t in turned]
                out.append(self.shown(d, d["marks"], name, tie(d["sig"]), turned))
                continue
            if d["name"] in of_need:
                k = of_need[d["name"]][0]
                of = {0: (None, n.at.get(plain(n.entry["asked_at"][k][0])))}
                sig = f"tie.Need-{n.needs[k][1]}" + "".join(" " + w for w in d["sig"].split()[1:])
            else:
                of = self.place_of(d["sig"])
                sig = d["sig"]
                places = {name: i for name, i in of.values() if name}
                sig = tie(self.turn_body(sig, places, False, True))
            clauses = []
            for c in d["clauses"]:
                parts = self.clause_parts(c, d["name"])
                if parts is None:
                    clauses.append(c)
                    continue
                params, text = parts
                places = {params[k]: i for k, (_, i) in of.items() if k < len(params) and i is not None}
                text = self.turn_body(text, places, False, True)
                clauses.append(" ".join([d["name"]] + params) + " =" + text)
            out.append(self.shown(d, d["marks"], d["name"], sig, clauses))
        with open(f"crates/{self.crate}/proofs/{self.path}/Proof.antt", "w", encoding="utf-8") as f:
            where = f"Rattle.{self.crate}.proofs.{self.path.replace('/', '.')}."
            uses = [re.sub(r"Rattle\.\S+?\.proofs\.\S+?\.(?=Statement|Tie\b)", where, u) for u in self.uses]
            f.write("\n".join(self.head + uses + [""]) + "\n" + "\n\n".join(out) + "\n")
        return "proof"


def main():
    listed, crates = sys.argv[1], sys.argv[2:]
    counts = {}
    for crate in crates:
        p = f"{listed}/crates/{crate}/names.json"
        if not os.path.exists(p):
            continue
        with open(p) as f:
            names = json.load(f)
        top = f"crates/{crate}/proofs"
        for folder, _, files in sorted(os.walk(top)):
            if "Proof.antt" not in files:
                continue
            path = os.path.relpath(folder, top)
            say = lambda s: print(f"look: {crate}::{path}: {s}")
            entry = names.get(f"Rattle-{crate}-proofs.{path.replace('/', '.')}.Lts")
            if entry is None:
                say("not in names.json: by hand")
                continue
            try:
                how = Proof(crate, path, Names(entry, say), say).turn()
            except Exception as e:
                say(f"failed: {e!r}")
                how = None
            counts[how] = counts.get(how, 0) + 1
    print(counts)


main()
