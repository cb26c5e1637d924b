#!/usr/bin/env python3
"""Respells the repository's own definitions and lemmas: words in snake case, types in camel case, a prime as an apostrophe.

usage: tools/respell.py [--list]     at the top of the repository, once, after port.py

Names that are brought in from outside the repository keep their spelling, and so do functions of src/ and strings.
"""
import collections
import glob
import re
import sys

W = r"[^\s(){}.;,@\"«»\[\]\\]+"
TOKEN = re.compile(r"--[^\n]*|//[^\n]*|\"(?:[^\"\\]|\\.)*\"|'(?:[^'\\]|\\.)'|" + W)
SIGNATURE = re.compile(r"(?m)^ *(?:(?:pub|abbrev|unfoldable|record|data|ruleset|opaque) +)*\|? *(" + W + r")(?= *(?:\([^\n]*?\)|\{[^\n]*?\})* *(?::|=|(?: \([^=\n]*)$))")
RECORD = re.compile(r"(?m)^(?:pub )?(?:record|data) (" + W + ")")
USE = re.compile(r"(?m)^ *(?:pub )?(?:ghost )?use ([^\n{]*?)(?:\.\{([^}]*)\}|(?: as (" + W + r"))?);?$")
KEPT = {"--", "where", "use", "in", "let", "elim", "module"}
# Names that would fall together with a definition: a lemma's gets _lem, a field's says what it holds.
OTHERS = {"no-atoms": "empty_atoms", "no-clauses": "empty_clauses", "no-nexts": "empty_nexts"}
OTHERS.update({name: snake_lem + "_lem" for name, snake_lem in {
    "atom-at": "atom_at", "atom-in": "atom_in", "body-in": "body_in", "clause-in": "clause_in", "every-from": "every_from",
    "few-atoms": "few_atoms", "first-end": "first_end", "second-end": "second_end", "found-at": "found_at", "goes_on": "goes_on",
    "handed_out": "handed_out", "in-range": "in_range", "is-hex": "is_hex", "is-legal": "is_legal", "is_true": "is_true",
    "no-flags": "no_flags", "on-first": "on_first", "on-seed": "on_seed", "other-kind": "other_kind", "record-set": "record_set",
    "refused-by": "refused_by", "role-kind": "role_kind", "ruled-by": "ruled_by", "starts-long": "starts_long",
    "until-blank": "until_blank", "until-end": "until_end", "with-clauses": "with_clauses",
}.items()})
OTHERS.update({"refuse◌atLowestOf◌if◌": "refuse◌at_lowest_of◌if◌"})
# Words inside the name of an operator.
PARTS = {"atLowestOf": "at_lowest_of"}
# Fields of records that never meet.
APART = {"firsts_long", "seconds_long"}


def own(path, crates):
    m = re.match(r"Rattle\.(\w+)", path.strip())
    return bool(m) and m[1] in crates


def snake(name):
    if not re.search(r"[A-Za-z]", name) or "◌" in name:
        return name.replace("′", "'")
    new = name.replace("′", "'").replace("-", "_")
    if new[0].islower():
        new = re.sub(r"(?<=[a-z0-9])([A-Z])(?=[a-z])", lambda m: "_" + m[1].lower(), new)
    return new


def texts(ends):
    for end in ends:
        yield from sorted(glob.glob(f"crates/*/specs/**/*{end}", recursive=True) + glob.glob(f"crates/*/proofs/**/*{end}", recursive=True) + glob.glob(f"crates/*/src/**/*{end}", recursive=True))


def read(path):
    with open(path, encoding="utf-8") as it:
        return it.read()


def blank(text):
    return re.sub(r"--[^\n]*", "", text)


def names():
    """The own names that are respelt, with their new spelling."""
    found = collections.defaultdict(set)
    for path in texts([".antt"]):
        if path.endswith("/Proof.antt"):
            continue
        for m in SIGNATURE.finditer(blank(read(path))):
            found[m[1]].add(path)
        for m in re.finditer(r"(?m)^ *(?:pub )?ruleset (" + W + ")", blank(read(path))):
            found[m[1]].add(path)
    out = {}
    for name in found:
        if name in KEPT or name.startswith(("--", "Rattle")):
            continue
        new = OTHERS.get(name, snake(name))
        if new != name:
            out[name] = new
    return out, found


def imported(text, crates):
    out = set()
    for m in USE.finditer(text):
        if m[2] is not None and not own(m[1], crates):
            for it in m[2].split(","):
                parts = it.split(" as ")
                out.update(p.strip() for p in parts)
    return out


def fields():
    """The own names of fields, which stand after a dot."""
    out = set()
    for path in texts([".antt"]):
        text = blank(read(path))
        for m in re.finditer(r"(?m)^((?:  )*)(?:pub )?record [^\n]*\n((?:\1  [^\n]*\n|\n)+)", text):
            out.update(re.findall(r"(?m)^ +(?:pub )?(" + W + ") :", m[2]))
    return out


def turned(text, map_, kept, dotted):
    def one(m):
        it = m[0]
        before = text[max(0, m.start() - 60) : m.start()]
        if dotted is not None and before.endswith(".") and not re.search(r"(?m)^ *use [^\n]*$", before):
            path = re.search(r"[^\s(){},@\"«»\[\]\\]*$", before)[0]
            if it not in dotted or path in ("c.", "l.", "tie.") or path.endswith("before."):
                return it
        if it.startswith(("--", "//")):
            return re.sub(r"`[^`\n]*`", lambda b: re.sub(W, lambda n: map_.get(n[0], n[0]), b[0][1:-1]).join("``"), it)
        if it.startswith('"') or (it.startswith("'") and len(it) > 2 and it.endswith("'")):
            return it
        return map_.get(it, it) if it not in kept else it

    return TOKEN.sub(one, text)


def main(argv):
    crates = {p.split("/")[1] for p in glob.glob("crates/*/src")}
    map_, found = names()
    together = collections.defaultdict(set)
    for name in found:
        together[map_.get(name, name)].add(name)
    bad = {k: v for k, v in together.items() if len(v) > 1 and k not in APART}
    if "--list" in argv:
        for k in sorted(map_):
            print(k, map_[k])
    for k, v in sorted(bad.items()):
        print("falls together:", k, *[f"{n} ({', '.join(sorted(found[n]))})" for n in sorted(v)], file=sys.stderr)
    if "--list" in argv or bad:
        return bool(bad)
    map_.update(PARTS)
    fields_ = fields()
    for path in texts([".antt", ".rt"]):
        text = read(path)
        both = {map_[n] for n in map_ if n in text} & imported(text, crates)
        if both:
            print("also brought in:", path, *sorted(both), file=sys.stderr)
        new = turned(text, map_, imported(text, crates), fields_ if path.endswith("/Proof.antt") else None)
        if new != text:
            write(path, new)
    new_names = {map_.get(n, n) for n in found} | set(OTHERS.values())

    def later(it):
        """The name in a page or an edit, which port.py leaves in the oldest spelling."""
        return map_[it] if it in map_ else snake(it) if snake(it) in new_names else it

    for path in ["README.md", *sorted(glob.glob("docs/*.md"))]:
        text = read(path)
        new = re.sub(r"`[^`\n]*`", lambda m: re.sub(W, lambda n: later(n[0]), m[0][1:-1]).join("``"), text)
        if new != text:
            write(path, new)
    for path in sorted(glob.glob("crates/*/must-fail/*.edit")):
        text = read(path)
        new = "\n".join(re.sub(r"^(old|new): (.*)$", lambda m: m[1] + ": " + re.sub(r'"[^"]*"|' + W, lambda n: later(n[0]), m[2]), line) for line in text.split("\n"))
        if new != text:
            write(path, new)
    return 0


def write(path, text):
    with open(path, "w", encoding="utf-8") as it:
        it.write(text)


if __name__ == "__main__":
    raise SystemExit(main(sys.argv[1:]))
