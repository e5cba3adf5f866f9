#!/usr/bin/env python3
"""Brings the names of this repository's definitions and lemmas to today's spelling.

usage: python3 tools/respell.py [--check]      once, at the top of a checkout that port.py has turned

A definition is in snake case, a fact (a definition into `Type`) in upper camel case. In a lemma's name a dash joins two
names and an underscore a plain word. Functions of src/, exported C names, strings, inputs and outputs keep theirs.
--check prints the table and writes nothing. What falls together with a name that is there already is in OTHER below.
"""

import glob
import os
import re
import sys

# Names whose plain new spelling is taken, by a function of src/ or by another definition.
OTHER = {
    "timesOf": "the_times",
    "trialOf": "the_trial",
    "quarticsOf": "the_quartics",
    "restToRest": "rest_to_rest_trial",
    "unitsOf": "units_in",
    "twoDigits": "pair_of_digits",
    "sumStep": "step_of_sums",
    "stateAt": "state_at_moment",
    "lastA": "last_error_a",
    "lastV": "last_error_v",
    "lastP": "last_error_p",
}

# Plain words, though a name is so spelled somewhere.
PLAIN = set("a an at as are in is it no not of on or out the to by up yes as1 two one start made known few".split())

# A word as antt cuts it, and the place of one that no dot stands before.
WORD = r"[^\s(){}\[\]|.;,:@\"«»`/*+=⟨⟩]+"
BARE = re.compile(rf"(?<![.\w'-])(?<![^\s(){{}}\[\]|;,:@\"«»`/*+=])({WORD})")
DECLARED = re.compile(
    r"^ *(?:(?:pub|unfoldable|abbrev) )*(record |data )?((?:[^\s():{}]+ )+):(?= |$)(.*(?:\n {4,}.*)*)", re.M
)
RECORD = re.compile(r"^ *(?:pub )?(?:record|data) (\S+)", re.M)
IMPORT = re.compile(r"^(?:ghost )?use (\S+?)\.\{([^}]*)\}", re.M)
GENERATED = re.compile(r"(returns|loop|invariant|decreases|overflow|bounds|slice|shared|cast|nonzero)\b.*|.*-(requires|result|spec)(-\d+)?$")
FUNCTION = re.compile(r"/proofs/.*/(Proof|Answers|Invariants)\.antt$")
KEPT = {"tt", "as", "in"}


def read(path):
    with open(path, encoding="utf-8") as f:
        return f.read()


def texts(kind):
    return sorted(p for p in glob.glob(f"crates/*/{kind}", recursive=True) if "/out/" not in p)


def in_snake_case(name):
    name = re.sub(r"(?<=[a-z0-9])(?=[A-Z])", "_", name)
    name = re.sub(r"(?<=[A-Z])(?=[A-Z][a-z])", "_", name)
    return name.lower()


def in_camel_case(name):
    return "".join(w[:1].upper() + w[1:] for w in name.split("_"))


def table():
    own, facts, foreign, words, fields = {}, set(), set(), set(), set()
    crates = {os.path.basename(p) for p in glob.glob("crates/*")}
    specs = set()
    for path in texts("specs/**/*.antt") + texts("proofs/**/*.antt"):
        text = read(path)
        words |= set(re.findall(WORD, IMPORT.sub(r"\2", text)))
        for m in IMPORT.finditer(text):
            parts = m.group(1).split(".")
            if not (parts[0] == "Rattle" and parts[1] in crates):
                foreign |= {w.strip().split(" as ")[0] for w in m.group(2).split(",")}
        if FUNCTION.search(path):
            continue
        for m in DECLARED.finditer(text):
            for name in m.group(2).split():
                if m.group(0)[0] == " ":
                    fields.add(name)
                own.setdefault(name, set()).add(path)
                if "/specs/" in path:
                    specs.add(name)
                if not m.group(1) and re.search(r"(^|→ *|\s)Type \d+\s*$", m.group(3).strip()):
                    facts.add(name)
        own.update({m.group(1): {path} for m in RECORD.finditer(text)})
    code = set()
    for path in texts("src/**/*.rt"):
        code |= set(re.findall(r"\w+", re.sub(r"ghost use[^;]*;|//[^\n]*|\{[^{}\n]*(?:≡|≤|<)[^{}]*\}", " ", read(path))))
    names = {n for n in foreign | specs if "-" not in n and len(n) > 1} - PLAIN

    def is_name(part):
        return part in names or part[:1].isupper() or not part.isascii()

    def plain(name):
        parts = re.split(r"(?<!\de)-", name)
        new = []
        for part in parts:
            if re.search(r"[a-z0-9][A-Z]", part) and part[:1].islower():
                part = in_camel_case(part) if name in facts else in_snake_case(part)
            new.append(part)
        if name in facts and name[:1].islower() and len(parts) == 1:
            new = [in_camel_case(new[0])]
        out = new[0]
        for k in range(1, len(parts)):
            out += ("-" if is_name(parts[k - 1]) and is_name(parts[k]) else "_") + new[k]
        return out

    rows, clash = {}, []
    kept = foreign | KEPT
    for turn in (True, False):
        for name in sorted(own):
            is_definition = "-" not in name
            if is_definition != turn or name in kept or name[0] == "#" or "◌" in name or GENERATED.fullmatch(name):
                continue
            out = OTHER.get(name) or plain(name)
            if out == name:
                continue
            taken = words | code | set(rows.values())
            if out in taken and name not in OTHER:
                out += "_of" if is_definition and not out.endswith("_of") else "_lem"
            if out in taken:
                clash.append((name, out))
            rows[name] = out
    return rows, clash, fields


def main():
    rows, clash, fields = table()
    if "--check" in sys.argv:
        for old, new in rows.items():
            print(old, new)
        for c in clash:
            print("clash", *c)
        return
    if clash:
        raise SystemExit(f"names fall together: {clash}")

    # a field stands behind a dot too; no name that Rattle makes is in camel case
    in_camel = [n for n in rows if re.fullmatch(r"[a-z0-9]+[A-Z]\w*", n)]
    dashed = [re.escape(n) for n in rows if n in fields and "-" in n]
    camel = re.compile("(?<![\\w'-])(?:" + "|".join(in_camel) + ")(?![\\w'-])")
    field = re.compile("(?<=[\\w)]\\.)(?:" + "|".join(dashed) + ")(?![\\w'-])")

    def turned(m):
        return rows.get(m.group(1), m.group(1))

    def names(text):
        text = BARE.sub(turned, text)
        for pattern in (camel, field):
            text = pattern.sub(lambda m: rows[m.group(0)], text)
        return text

    def spans(text):
        return re.sub(r"`[^`\n]+`", lambda m: names(m.group(0)), text)

    def antt(text):
        return "\n".join(
            names(code) + mark + spans(comment)
            for code, mark, comment in (re.match(r"(.*?)((?:(?<=\s)|^)--(?=\s)|$)(.*)", x).groups() for x in text.split("\n"))
        )

    def rt(text):
        return "\n".join(
            names(code) + mark + spans(comment)
            for code, mark, comment in (re.match(r"(.*?)(//|$)(.*)", x).groups() for x in text.split("\n"))
        )

    def edit(text):
        return "\n".join(antt(x) if re.match(r"(old|new): ", x) else spans(x) for x in text.split("\n"))

    def library(text, path):
        text = text.replace("Rattle.hex.", "Rattle.hex_bytes.")
        return re.sub(r"^use hex::", "use hex_bytes::", text, flags=re.M) if path.endswith(".rt") else text

    kinds = [("specs/**/*.antt", antt), ("proofs/**/*.antt", antt), ("src/**/*.rt", rt), ("must-fail/*.edit", edit)]
    files = [(p, turn) for kind, turn in kinds for p in texts(kind)]
    pages = ["README.md", "oracle/README.md", "samples/README.md"] + glob.glob("docs/*.md")
    files += [(p, spans) for p in pages if os.path.exists(p) and not p.startswith("docs/PORT")]
    for path, turn in files:
        text = read(path)
        new = library(turn(text), path)
        if new != text:
            with open(path, "w", encoding="utf-8") as f:
                f.write(new)
    # the kit has a library named hex
    os.rename("crates/hex", "crates/hex_bytes")
    lines = read("crates.txt")
    with open("crates.txt", "w", encoding="utf-8") as f:
        f.write(re.sub(r"(?m)^(?!#).*", lambda m: re.sub(r"\bhex\b", "hex_bytes", m.group(0)), lines))


if __name__ == "__main__":
    main()
