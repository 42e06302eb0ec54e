#!/usr/bin/env python3
"""Turns a crate's Proof.antt files into Invariants.antt and Answers.antt.

answers.py CRATE NAMES.json, where NAMES.json is what `rt check --generated DIR --old-names` wrote of
the crate. An answer that says only `search rules` is left out, since the check tries that by itself.
What it cannot turn it prints.
"""
import json
import re
import sys
from pathlib import Path

WORD = r"[^\s(){}\[\];.,:λ\"`«»|@]+"


def norm(name):
    return name.replace("-", "_").replace("′", "'")


def declarations(text):
    """The file's head (comments and uses), and its declarations: lists of lines that begin at column 0."""
    out = []
    for line in text.split("\n"):
        if line and not line[0].isspace():
            new = True
            if out:
                last = out[-1]
                # further clauses and the signature of one name stay together
                head = re.match(r"(?:(?:pub|abbrev|unfoldable)\s+)*(" + WORD + ")", line)
                name = head.group(1) if head else ""
                if line.startswith("unfolding ") or (not line.startswith(("use ", "--", "ruleset ", "module ", "record ", "data ")) and name and name == last["name"]):
                    new = False
            if new:
                head = re.match(r"(?:(?:pub|abbrev|unfoldable)\s+)*(" + WORD + ")", line)
                out.append({"name": head.group(1) if head else "", "lines": []})
        if not out:
            out.append({"name": "", "lines": []})
        out[-1]["lines"].append(line)
    return out


class Proof:
    def __init__(self, path, rows):
        self.path = path
        self.rows = rows
        self.needs = {}
        for i, (old, new) in enumerate(rows["needs"]):
            self.needs.setdefault(norm(old), (new, rows["asked_at"][i][0], i))
        self.places = {p[0]: p for p in rows["places"]}
        self.by_norm = {norm(p[0]): p[0] for p in rows["places"]}
        self.loops = {norm(l[0][0]): (l[0][1], l[1], rows["changed"][i]) for i, l in enumerate(rows["loops"])}
        self.said = []

    def goal(self, label, name):
        for l in (label, re.sub("^overflow-", "", label), re.sub("^slice-bounds-", "part-", label), re.sub("^slice-bounds-", "slice_aggregate-", label), name):
            if norm(l) in self.needs:
                return self.needs[norm(l)]
        return None

    def say(self, what):
        self.said.append(what)

    def step(self, place, n):
        for _ in range(n):
            p = self.places.get(place)
            if not p or not p[1]:
                return place if p else None
            place = p[1]
        return place

    def body(self, text, place, var="c"):
        """Paths from `c` and from names bound to places are turned."""
        env = {var: place}
        out = []
        at = 0
        pat = re.compile(r"(?<![^\s(){}\[\],;=λ])(" + WORD + r")((?:\.before)*)((?:\.[^\s(){}\[\],;]+)?)")
        for m in pat.finditer(text):
            name = m.group(1)
            if name not in env:
                continue
            # a binder of that name?
            n = m.group(2).count(".before")
            place_here = self.step(env[name], n) if env[name] else None
            rest = m.group(3)
            new = "c"
            if rest:
                parts = rest[1:].split(".")
                # a step's name may itself have dots? no
                first = parts[0]
                if norm(first) in ("args", "requires", "ranges", "well_formed", "lifetimes"):
                    parts[0] = norm(first)
                    new = "c." + ".".join(parts)
                else:
                    p = self.places.get(place_here) if place_here else None
                    if p and norm(p[2][0]) == norm(first):
                        parts[0] = p[2][1]
                    else:
                        # a step of that name anywhere on the way to the goal
                        q = place
                        found = None
                        while q:
                            p = self.places.get(q)
                            if not p:
                                break
                            if norm(p[2][0]) == norm(first):
                                found = p[2][1]
                                break
                            q = p[1]
                        if found:
                            parts[0] = found
                        else:
                            self.say(f"no step {first} at {place_here}: {m.group(0)}")
                    new = "c." + ".".join(parts)
            else:
                # bound by a let?
                before = text[:m.start()]
                b = re.search(r"let (" + WORD + r") = $", before)
                after = text[m.end():]
                if b and re.match(r"\s+in\b", after):
                    env[b.group(1)] = place_here
                elif name != "c" and re.search(r"let $", before):
                    continue
                elif n or name != var:
                    self.say(f"a bare place: {m.group(0)}")
            out.append(text[at:m.start()])
            out.append(new)
            at = m.end()
        out.append(text[at:])
        text = "".join(out)
        text = re.sub(r"let " + WORD + r" = c in\s*", "", text)
        return text

    def invariant(self, kind, decl):
        text = "\n".join(decl["lines"])
        m = re.match(r"(abbrev (?:pub )?)(\S+) : tie\.(\S+)\n((?:unfolding [^\n]*\n)?)(\S+)\s+([^=]*?)=(.*)$", text, re.S)
        if not m:
            self.say("unread: " + text[:200])
            return None
        label = norm(m.group(3))[len(kind) + 1:]
        loop = self.loops.get(label)
        if not loop and len(self.loops) == 1:
            loop = next(iter(self.loops.values()))
        if not loop:
            self.say(f"no loop {label} of {list(self.loops)}")
            return None
        new, live, changed = loop
        params = m.group(6).split()
        order = [("l.initial." if changed[j] else "l.") + v for j, v in enumerate(live)] + ["l." + v for j, v in enumerate(live) if changed[j]]
        if len(order) != len(params):
            self.say(f"{len(params)} parameters for {order}")
        put = {}
        for name, path in zip(params, order):
            put[name] = path
        body = re.sub(r"(?<![^\s(){}\[\],;:λ])(" + WORD + r")(?=[\s(){}\[\],;.:]|$)", lambda k: put.get(k.group(1), k.group(1)), m.group(7))
        return f"abbrev pub {kind}-{new} : goal.{kind}-{new}\n{m.group(4)}{kind}-{new} l ={body}"

    def turn(self):
        text = self.path.read_text()
        decls = declarations(text)
        head, answers, invariants, used = [], [], [], []
        module = None
        for d in decls:
            text = "\n".join(d["lines"]).rstrip()
            if not text:
                continue
            if text.startswith("use "):
                m = re.match(r"use (Rattle\.\S+)\.(Statement\.\{statement\}|Tie as tie)", text)
                if m:
                    module = m.group(1)
                    continue
                head.append(text)
            elif text.startswith("--"):
                head.append(text)
            elif re.match(r"abbrev (?:pub )?\S+ : tie\.(invariant|decreases)", text):
                kind = re.match(r"abbrev (?:pub )?\S+ : tie\.(invariant|decreases)", text).group(1)
                r = self.invariant(kind, d)
                if r:
                    invariants.append(r)
                else:
                    invariants.append(text)
            elif re.match(r"pub \S+ : (?:\{M : Type 1\} → )?statement", text):
                continue
            elif re.search(r"^\S+ :\s+tie\.Need-", text, re.M):
                m = re.match(r"((?:--[^\n]*\n)*)(?:pub )?(\S+) :\s+tie\.Need-(\S+)([^\n]*)\n((?:unfolding [^\n]*\n)?)(.*)$", text, re.S)
                if not m:
                    self.say("unread: " + text[:200])
                    answers.append(text)
                    continue
                comment, name, label, _, unfolding, clause = m.groups()
                row = self.goal(label, name)
                b = re.match(re.escape(name) + r"\s+([^=]*?)=(.*)$", clause, re.S)
                plain = b and re.fullmatch(r"\s*search rules\s*", b.group(2)) and not unfolding
                if not row:
                    if not plain:
                        self.say(f"no goal {label}: {clause[:300]}")
                    continue
                if plain:
                    continue
                new, place, _i = row
                if not b:
                    self.say("unread clause: " + clause[:200])
                    continue
                params = b.group(1).split()
                var = params[0] if params else "c"
                body = self.body(b.group(2), place, var)
                answers.append(f"{comment}pub {new} : goal.{new}\n{unfolding}{new} c ={body}")
            else:
                m = re.search(r"\((\w+) : tie\.(\S+?)(?:\s[^)]*)?\)", text)
                if m:
                    place = self.by_norm.get(norm(m.group(2)))
                    if place:
                        names = dict(zip([p[0] for p in self.rows["places"]], self.rows["places_by_name"]))
                        pl = m.group(0)
                        text = text.replace(pl, f"(c : goal.{names[place]})")
                        text = self.body(text, place, m.group(1))
                    else:
                        self.say("no place " + m.group(0))
                elif "tie." in text:
                    self.say("tie in: " + text[:200])
                answers.append(text)
        folder = self.path.parent
        wrote = []
        if invariants:
            wrote.append("Invariants.antt")
            (folder / "Invariants.antt").write_text("\n".join(head + [f"use {module}.Given as goal"]) + "\n\n" + "\n\n".join(invariants) + "\n")
        if any("goal." in a for a in answers):
            wrote.append("Answers.antt")
            extra = []
            if any(re.search(r"(invariant|decreases)-", a) for a in answers):
                pass
            (folder / "Answers.antt").write_text("\n".join(head + extra + [f"use {module}.Goals as goal"]) + "\n\n" + "\n\n".join(answers) + "\n")
        self.path.unlink()
        if not any(folder.iterdir()):
            folder.rmdir()
        return wrote


def main():
    crate, names = sys.argv[1], json.load(open(sys.argv[2]))
    for path in sorted(Path("crates", crate, "proofs").rglob("Proof.antt")):
        rel = ".".join(path.parent.relative_to(Path("crates", crate, "proofs")).parts)
        keys = [k for k in names if k == f"Rattle-{crate}-proofs.{rel}.Lts"] or [k for k in names if k.endswith(f".{rel}.Lts") and k.startswith(f"Rattle-{crate}-")]
        if not keys:
            print(f"{path}: no generated names; of {[k for k in names if rel in k]}")
            continue
        proof = Proof(path, names[keys[0]])
        proof.turn()
        for s in proof.said:
            print(f"{path.parent}: {s}")


if __name__ == "__main__":
    main()
