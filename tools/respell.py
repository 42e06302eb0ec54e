#!/usr/bin/env python3
"""Brings the repository's own definitions and lemmas to the spelling of its toolchain.

Run once, at the top, right after the toolchain's own port.py. Words are in snake case (readU32 and
run-starts become read_u32 and run_starts), types, facts and modules in camel case (Comes-to becomes
ComesTo), and a prime is an apostrophe. Functions of src/, Rust's types, fields and variants, and the
names that a library or the check itself makes keep theirs. Where two names would fall together, the
lemma of the two ends in _lem.
"""
import re
import sys
from pathlib import Path

TOKEN = re.compile(r"[^\s(){}\[\];.,:λ\"`«»|@]+")
DECLARED = re.compile(r"^\s*(?:(?:pub|abbrev|unfoldable|opaque)\s+)*([^\s(){};.,λ\"`:]+(?:\s+[^\s(){};.,λ\"`:]+)*)\s+:\s", re.M)
MADE = re.compile(r"^\s*(?:(?:pub|abbrev|unfoldable)\s+)*(?:record|data|module|ruleset)\s+(?:pub\s+)?([^\s(){};.,λ\"`:]+)", re.M)
USE = re.compile(r"^\s*(?:pub\s+)?(?:ghost\s+)?use\s+([^{\n;]*?)(?:\.\{([^}]*)\})?(?:\s+as\s+(\S+))?;?\s*$", re.M)
CODE = re.compile(r"--[^\n]*|\"(?:[^\"\\\n]|\\.)*\"")


def respelled(name):
    new = name.replace("′", "'")
    if new[0].isupper():
        return re.sub(r"-(.)", lambda m: m.group(1).upper(), new)
    new = new.replace("-", "_")
    return re.sub(r"([a-z0-9])([A-Z])", lambda m: m.group(1) + "_" + m.group(2).lower(), new) if re.match(r"^[a-z]+[a-z0-9]*[A-Z]", new) else new


def own(path, crates):
    m = re.match(r"Rattle\.([a-z0-9_]+)(?:\.|$)", path)
    return bool(m) and m.group(1) in crates


def outside(text, crates):
    """The names that a file takes from a library."""
    names = set()
    for m in USE.finditer(text):
        if own(m.group(1), crates):
            continue
        for part in (m.group(2) or "").split(","):
            names.update(p.strip() for p in part.split(" as ")[:1] if p.strip())
    return names


def declared(text):
    names = set()
    for m in DECLARED.finditer(text):
        names.update(m.group(1).split())
    for m in MADE.finditer(text):
        names.add(m.group(1))
    return names


def parts(text, clauses):
    """Pieces of a source file, each with whether it is to be respelled."""
    if not clauses:
        at = 0
        for m in CODE.finditer(text):
            yield text[at:m.start()], True
            yield m.group(0), None
            at = m.end()
        yield text[at:], True
        return
    at = 0
    for m in re.finditer(r"//[^\n]*|^\s*ghost use [^;]*;|\b(?:requires|ensures)\b[^{;]*\{|\bghost [a-z_]+: \{", text, re.M):
        if m.start() < at:
            continue
        end = m.end()
        if m.group(0).startswith("//"):
            yield text[at:m.start()], False
            yield m.group(0), None
            at = end
            continue
        if text[end - 1] == "{":
            depth = 1
            while depth:
                depth += {"{": 1, "}": -1}.get(text[end], 0)
                end += 1
        yield text[at:m.start()], False
        yield text[m.start():end], True
        at = end
    yield text[at:], False


def renamed(text, names, how):
    """How is True for code, None for a comment, where only names in camel case are surely names."""
    if how is False:
        return text
    if how is None:
        names = {n: m for n, m in names.items() if re.search("[a-z][A-Z]", n)}

    def turn(m):
        name = m.group(0)
        before = text[max(0, m.start() - 4):m.start()]
        made = before.endswith("tie.") or (text[max(0, m.start() - 7):m.start()] == "proofs." and "_" in name)
        return name if name not in names or made else names[name]
    return TOKEN.sub(turn, text)


def main():
    crates = {p.name for p in Path("crates").iterdir() if (p / "src").is_dir()}
    antt = [p for c in crates for d in ("specs", "proofs") for p in sorted(Path("crates", c, d).rglob("*.antt"))]
    texts = {p: p.read_text() for p in antt}
    laws = [p for p in antt if p.name != "Proof.antt"]
    defined = set()
    proved = set()
    for p in laws:
        names = declared(CODE.sub("", texts[p]))
        (defined if p.parts[2] == "specs" else proved).update(names)
    every = defined | proved
    map_ = {n: respelled(n) for n in every if respelled(n) != n}
    # names that fall together: the lemma gives way
    said = {}
    for n in sorted(every):
        said.setdefault(map_.get(n, n), []).append(n)
    for new, olds in sorted(said.items()):
        if len(olds) > 1:
            keeper = min(olds, key=lambda n: ("-" in n, "_" in n, n not in defined, n))
            for n in olds:
                if n != keeper:
                    map_[n] = new + ("Fact" if new[0].isupper() else "_lem")
            print("fall together:", new, olds, {n: map_.get(n, n) for n in olds})
    clash = 0
    for p in antt:
        names = {n: m for n, m in map_.items() if n not in outside(texts[p], crates)}
        lib = {m for m in outside(texts[p], crates)}
        for n, m in names.items():
            if m in lib and re.search(r"(?<![^\s(){};.,])" + re.escape(n) + r"(?![^\s(){};.,])", texts[p]):
                print("clash:", p, n, m)
                clash += 1
        new = "".join(renamed(t, names, how) for t, how in parts(texts[p], False))
        if new != texts[p]:
            p.write_text(new)
    for c in sorted(crates):
        for p in sorted(Path("crates", c, "src").rglob("*.rt")):
            text = p.read_text()
            names = {n: m for n, m in map_.items() if n not in outside(text, crates)}
            new = "".join(renamed(t, names, how) for t, how in parts(text, True))
            if new != text:
                p.write_text(new)
    for p in sorted(Path("crates").glob("*/must-fail/*.edit")):
        text = p.read_text()
        if re.search(r"^file: .*\.antt$", text, re.M):
            p.write_text("".join(renamed(line, map_, line.startswith(("old:", "new:"))) for line in text.splitlines(True)))
    for p in antt:
        if p.stem in map_ and p.name != "Proof.antt":
            p.rename(p.with_name(map_[p.stem] + ".antt"))
    print(len(map_), "names respelled,", clash, "clashes")
    return 0


if __name__ == "__main__":
    sys.exit(main())
