#!/usr/bin/env python3
"""Respells the repository's own names as today's Rattle spells them: words in snake case, types and modules in camel case.

usage: python3 tools/respell.py        once, at the top of the repository, right after port.py

What is respelled: each definition, lemma, record field and variable of specs/ and proofs/ with a capital inside its name (`valueFrom` is
`value_from`), and each definition or lemma with a dash that joins no two names (`kept-in-range` is `kept_in_range`; `length-tabulate` keeps
its dash). They are respelled in .antt files, in the clauses and ghost use items of .rt files, in must-fail edits and in the pages. Strings,
Rust's names and the names that Rattle makes stay. The script stops where two names would fall together.
"""
import collections
import os
import re
import sys

WORD = re.compile(r"(?<![\w'₀₁₂])[a-zA-Z+][\w'+]*(?:-[\w'+]+)*[₀₁₂]?")
STRING = re.compile(r'"(?:[^"\\\n]|\\.)*"')
# Names of std's lemmas and words that stand on one side of a dash, as in `length-append`.
STD = set("length append set drop take map replicate cons nil get_or".split())


def files(*endings):
    for top in ("crates", "docs", "tools", "."):
        for folder, dirs, names in os.walk(top):
            dirs[:] = sorted(d for d in dirs if d not in ("out", "target", ".git")) if top != "." else []
            for name in sorted(names):
                if name.endswith(endings):
                    yield os.path.join(folder, name)


def read(path):
    with open(path, encoding="utf-8") as f:
        return f.read()


def is_function_proof(path):
    parts = path.split(os.sep)
    return "proofs" in parts and len(parts) - parts.index("proofs") > 2


def snake(word):
    word = re.sub(r"([a-z0-9])([A-Z])", r"\1_\2", word)
    return word.lower()


def declared():
    """The names that files of specs/ and proofs/ declare, but for what a function's proof answers."""
    plain, laws = set(), set()
    for path in files(".antt"):
        for line in read(path).split("\n"):
            m = re.match(r"\s*(?:(?:abbrev|unfoldable|pub|record|data)\s+)*([a-z][\w'-]*)\s*:\s", line)
            if not m or is_function_proof(path):
                continue
            (plain if f"{os.sep}specs{os.sep}" in path else laws).add(m.group(1))
    return plain, laws


def table():
    """Each name and its new one, and the same for laws alone, whose name a definition would have."""
    plain, laws = declared()
    words = set()
    for path in files(".antt"):
        text = STRING.sub("", re.sub(r"--.*", "", read(path)))
        words.update(WORD.findall(text))
    humped = {w for w in words if re.match(r"[a-z]", w) and re.search("[A-Z]", w) and "+" not in w}
    known = {snake(w) for w in plain} | STD
    out = {w: snake(w) for w in humped}
    for w in plain | laws:
        if "-" in w:
            parts = snake(w).split("-")
            out[w] = parts[0]
            for a, b in zip(parts, parts[1:]):
                out[w] += ("-" if a in known and b in known and STD & {a, b} else "_") + b
    for w in plain | laws:
        if out.get(w, w).startswith("get_d_"):
            out[w] = "get_or-" + out.get(w, w)[6:].replace("-", "_")
    out = {w: n for w, n in out.items() if w != n}
    # A law that would have its definition's name is told by _lem.
    taken = collections.Counter(out.get(w, w) for w in plain | {h for h in humped if "-" not in h})
    of_laws = {w: w + "_lem" for w in laws - plain if "-" not in w and w not in humped and w in {n for v, n in out.items() if v in plain | humped}}
    for w, n in out.items():
        if "-" in w and taken[n] > (w in plain):
            out[w] = n + "_lem"
    back = collections.defaultdict(set)
    for w in plain | laws | humped:
        back[of_laws.get(w, out.get(w, w))].add(w)
    clash = {n: ws for n, ws in back.items() if len(ws) > 1}
    return out, of_laws, clash


def respell(text, names, dashes=True):
    def one(m):
        w = m.group(0)
        tail = ""
        if w[-1] in "₀₁₂":
            w, tail = w[:-1], w[-1]
        if "-" in w and not dashes:
            return m.group(0)
        return names.get(w, w) + tail

    out, last = [], 0
    for s in STRING.finditer(text):
        out += [WORD.sub(one, text[last:s.start()]), s.group(0)]
        last = s.end()
    return "".join(out + [WORD.sub(one, text[last:])])


def wire():
    """The words with a dash that the programs write and read, as `sensor-list`: no names of ours."""
    out = set()
    for path in files(".antt", ".rt"):
        for s in STRING.findall(read(path)):
            out.update(w for w in re.findall(r"[a-z]+(?:-[a-z]+)+", s))
    return out


WIRE = set()


def humps(m):
    """A name of a page or an edit that port.py respelled, or that is gone."""
    w = m.group(0)
    return "get_or" if w == "getD" else snake(w) if re.fullmatch(r"[a-z][a-z0-9]*(?:[A-Z][a-z0-9]*)+", w) else w


def antt(text, names):
    lines = []
    for line in text.split("\n"):
        code, sep, note = line, "", ""
        bare = STRING.sub(lambda m: " " * len(m.group(0)), line)
        at = bare.find("--")
        if at >= 0 and (at == 0 or bare[at - 1] == " "):
            code, sep, note = line[:at], "--", line[at + 2:]
        lines.append(respell(code, names) + sep + notes(note, names))
    return "\n".join(lines)


def notes(text, names):
    """A comment or a page: humped names anywhere, dashed ones in backticks alone, but for the words of the wire."""
    ours = {w: n for w, n in names.items() if w not in WIRE}
    text = re.sub(r"`([^`\n]*)`", lambda m: "`" + WORD.sub(humps, respell(m.group(1), ours)) + "`", text)
    return WORD.sub(lambda m: names.get(m.group(0), m.group(0)) if "-" not in m.group(0) and re.search("[A-Z]", m.group(0)) else m.group(0), text)


def rust(text, names):
    """The clauses and ghost use items of a .rt file, and its comments."""
    lines, clause = [], 0
    for line in text.split("\n"):
        at = line.find("//")
        code, note = (line[:at], line[at:]) if at >= 0 and '"' not in line[:at] else (line, "")
        begins = re.match(r"\s*(ghost use|requires|ensures|ghost \w+:|#!?\[tactic)", code)
        if begins or clause > 0:
            code = respell(code, names)
            clause = max(0, clause + code.count("{") - code.count("}")) if not code.lstrip().startswith("#") else 0
        else:
            code = respell(code, names, dashes=False)
        lines.append(code + notes(note, names))
    return "\n".join(lines)


def edit(text, names):
    of_antt = re.search(r"^file: .*\.antt", text, re.M)
    turn = lambda l: WORD.sub(humps, (antt if of_antt else rust)(l, names))
    return "\n".join((l[:5] + turn(l[5:])) if re.match(r"(old|new): ", l) else notes(l, names) if l.startswith("#") else l for l in text.split("\n"))


def main():
    names, of_laws, clash = table()
    if "--list" in sys.argv:
        for w in sorted(names):
            print(w, names[w])
        for w in sorted(of_laws):
            print(w, of_laws[w], "(a law)")
    if clash:
        for n, ws in sorted(clash.items()):
            print("these fall together as", n + ":", *sorted(ws), file=sys.stderr)
        raise SystemExit(1)
    if "--list" in sys.argv:
        return
    WIRE.update(wire())
    for path in files(".antt", ".rt", ".edit", ".md"):
        text = read(path)
        turn = {".antt": antt, ".rt": rust, ".edit": edit, ".md": notes}[os.path.splitext(path)[1]]
        new = turn(text, names)
        if f"{os.sep}proofs{os.sep}" in path:
            new = re.sub(r"(?<![\w.'-])(" + "|".join(sorted(of_laws)) + r")(?![\w'-])", lambda m: of_laws[m.group(1)], new)
        if new != text:
            with open(path, "w", encoding="utf-8") as f:
                f.write(new)


main()
