#!/usr/bin/env python3
"""Holds docs/PROMISES.md against the sources: prints the counts that the page gives, and what is missing.

    docs/promises.py

Every public function has a row; a row names at least two must-fail edits, and none that is not there; every edit is
named; every public function has an `ensures`, with or without a name, and no `requires`; an edit with † changes no
file of src/ outside a promise, one without † does. Status 1 where something is missing. A function is public where it
is `pub` in src/lib.rt or in a `pub mod` of it, or a `pub` method of a type that is; and so is a conversion, `from` of
an `impl From<A> for B`, named `B::from(A)`, whose promise is the impl's `from_gives`, and `default` of an `impl
Default`, whose promise is `is_default`.
"""
import glob
import os
import re
import sys

ROOT = os.path.join(os.path.dirname(os.path.abspath(__file__)), "..")
os.chdir(ROOT)


def read(path):
    with open(path, encoding="utf-8") as f:
        return f.read()


def functions(text, prefix, methods_only):
    """(name, contract) of the public functions of a file."""
    text = re.sub(r"//.*", "", text)
    of = None
    for m in re.finditer(r"^impl (\w+)|^\}|^( *)pub (?:extern \"C\" )?fn (\w+)(.*?)^ *\{", text, re.M | re.S):
        if m.group(1):
            of = m.group(1)
        elif m.group(3) is None:
            of = None
        elif of and m.group(2):
            yield prefix + of + "::" + m.group(3), m.group(4)
        elif not methods_only and not m.group(2):
            yield prefix + m.group(3), m.group(4)


def of_traits(text):
    """(name, contract) of each `impl From<A> for B` and `impl Default for A` of a file."""
    text = re.sub(r"//.*", "", text)
    for a, b, body in re.findall(r"^impl From<(\w+)> for (\w+) \{(.*?)^\}", text, re.M | re.S):
        yield "%s::from(%s)" % (b, a), body
    for a, body in re.findall(r"^impl Default for (\w+) \{(.*?)^\}", text, re.M | re.S):
        yield "%s::default" % a, body


def clauses(text):
    """(keyword, start, end) of each `requires` and promise of a file, with or without a name."""
    for m in re.finditer(r"^ *(ensures|requires|ghost from_gives|ghost is_default) (?:\w+ |= )?\{", text, re.M):
        end, depth = m.end(), 1
        while depth:
            depth += {"{": 1, "}": -1}.get(text[end], 0)
            end += 1
        yield "requires" if m.group(1) == "requires" else "ensures", m.start(), end


def in_a_promise(text, old):
    """Whether a text stands in a clause or in a `ghost use`, and not in the code."""
    at = text.find(old)
    inside = any(start <= at and at + len(old) <= end for _, start, end in clauses(text))
    return inside or text[text.rfind("\n", 0, at) + 1:].startswith("ghost use")


def olds(edit):
    """(file, text) of each place that an edit changes."""
    path = None
    for line in edit.split("\n"):
        if line.startswith("file: "):
            path = line[6:]
        elif line.startswith("old: "):
            yield path, line[5:]


def asking(text):
    """How many functions of a file have a `requires`."""
    text = re.sub(r"//.*", "", text)
    contracts = re.findall(r'^ *(?:pub )?(?:extern "C" )?fn \w+(.*?)^ *\{', text, re.M | re.S)
    return sum(any(kind == "requires" for kind, _, _ in clauses(c)) for c in contracts)


def public(crate):
    base = "crates/%s/src/" % crate
    if not os.path.exists(base + "lib.rt"):
        return
    lib = read(base + "lib.rt")
    yield from functions(lib, "", False)
    yield from of_traits(lib)
    for pub, module in re.findall(r"^(pub )?mod (\w+);", lib, re.M):
        text = read(base + module + ".rt")
        yield from functions(text, module + "::" if pub else "", not pub)
        yield from of_traits(text)


def rows():
    """{crate: {function: edits}} of the page, an edit as CRATE/NAME with its mark."""
    page, crate, out, names = read("docs/PROMISES.md"), None, {}, []
    for line in page.split("\n"):
        m = re.match(r"## (.*)", line)
        if m:
            crate = m.group(1)
        cells = [c.strip() for c in line.split(" | ")] if line.startswith("| ") else []
        if len(cells) != 3 or not crate or cells[0] in ("| function", "|---") or "try" in cells[0]:
            continue
        if not cells[0].startswith("| the same") and not cells[0].startswith("| theorem"):
            names = re.findall(r"`([^`]+)`", cells[0])
        for name in names:
            here, plain = crate, name
            m = re.match(r"(\w+)::(.*)", name)
            if m and m.group(1) in CRATES:
                here, plain = m.group(1), m.group(2)
            found = out.setdefault(here, {}).setdefault(plain, [])
            for one in re.findall(r": `([a-z0-9_/]+)`", cells[2]):
                full = one if "/" in one else here + "/" + one
                if full not in EDITS:
                    WRONG.append("there is no edit %s" % full)
            for one, mark in re.findall(r"`([a-z0-9_/]+)`(†?)", cells[2]):
                full = one if "/" in one else here + "/" + one
                if full in EDITS:
                    found.append((full, mark))
    return out


CRATES = [l.split(":")[0].split()[0] for l in read("crates.txt").split("\n") if l.strip() and l[0] != "#"]
EDITS = {"%s/%s" % (p.split("/")[1], os.path.basename(p)[:-5]): read(p) for p in glob.glob("crates/*/must-fail/*.edit")}
WRONG = []


def main():
    listed = rows()
    wrong = sorted(set(WRONG))
    count = programs = theorems = with_functions = promises = 0
    for crate in CRATES:
        programs += os.path.exists("crates/%s/src/main.rt" % crate)
        theorems += os.path.exists("crates/%s/src/lib.rt" % crate) and not re.sub(r"//.*|#!\[.*", "", read(
            "crates/%s/src/lib.rt" % crate)).strip()
        found = list(public(crate))
        with_functions += bool(found)
        for name, contract in found:
            count += 1
            kinds = [kind for kind, _, _ in clauses(contract)]
            if "requires" in kinds:
                wrong.append("%s::%s has a requires" % (crate, name))
            if "ensures" not in kinds:
                wrong.append("%s::%s has no ensures" % (crate, name))
            promises += kinds.count("ensures")
            edits = listed.get(crate, {}).get(name)
            if edits is None:
                wrong.append("%s::%s has no row" % (crate, name))
            elif len(set(edits)) < 2:
                wrong.append("%s::%s: %s" % (crate, name, edits or "no edit"))
    sources = [read(p) for p in glob.glob("crates/*/src/**/*.rt", recursive=True)]
    extern = sum(len(re.findall(r'^pub extern "C" fn', text, re.M)) for text in sources)
    asks = sum(asking(text) for text in sources)
    page = read("docs/PROMISES.md")
    named = set(re.findall(r"`([a-z0-9_]+/[a-z0-9_]+)`", page)) | {e for f in listed.values() for l in f.values()
                                                                  for e, _ in l}
    section = {}
    for part in re.split(r"^## ", page, flags=re.M):
        section[part.split("\n")[0]] = part
    for edit, text in sorted(EDITS.items()):
        crate, name = edit.split("/")
        if edit not in named and "`%s`" % name not in section.get(crate, ""):
            wrong.append("the edit %s is not named" % edit)
    for edit, mark in sorted({e for f in listed.values() for l in f.values() for e in l}):
        crate = edit.split("/")[0]
        code = False
        for path, old in olds(EDITS[edit]):
            text = read("crates/%s/%s" % (crate, path))
            if old not in text:
                wrong.append("the edit %s: its text is not in %s" % (edit, path))
            elif path.startswith("src/"):
                code = code or not in_a_promise(text, old)
        if code == bool(mark):
            wrong.append("the mark of %s" % edit)
    print("%d crates, of which %d have public functions, %d hold theorems only and %d are programs" %
          (len(CRATES), with_functions, theorems, programs))
    print('%d public functions, %d of them extern "C", with %d promises; %d edits; %d functions with a requires, none '
          'of them public' % (count, extern, promises, len(EDITS), asks))
    for w in wrong:
        print(w)
    sys.exit(1 if wrong else 0)


main()
