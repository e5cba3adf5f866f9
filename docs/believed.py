#!/usr/bin/env python3
"""The definitions that a reader must believe, by theorem, from the sources.

    docs/believed.py            print the lists
    docs/believed.py --write    put them into docs/PROVED.md, between the marks
    docs/believed.py --check    status 1 where docs/PROVED.md has other lists, or where a statement
                                reaches a definition that stands in proofs/

From the type of each theorem, or the `ensures` of each function, every name is followed to its definition by the
`use` lines of its file, and so on from there. A definition is counted with the comment right above it, without blank
lines and imports. Names of std, lib, mathlib, Prim and the other libraries of the toolchain end the search. An enum or
a struct of the code (`specs.declared`) is counted as it stands in src/.
"""
import os
import re
import sys

ROOT = os.path.join(os.path.dirname(os.path.abspath(__file__)), "..")
CRATES = os.path.join(ROOT, "crates")

# What each list begins with, and the lists whose definitions it does not repeat.
# A cut is a name that is not followed: it belongs to a later list.
LISTS = [
    ("demand 1", [("lines", "src", "answer_line"), ("lines", "src", "answered"),
                  ("lines_c", "src", "answer_line"), ("lines_c", "src", "answer_counted"),
                  ("line_places/Places", "proofs", "after_a_number"),
                  ("line_places/Places", "proofs", "after_a_reply"),
                  ("line_places/Places", "proofs", "at_most_eight"),
                  ("line_places/Places", "proofs", "every_yes")], [], ["reply_of"]),
    ("line program", [("line_program", "src", "turn"), ("line_stream", "src", "finish"),
                      ("line_stream/Whole", "proofs", "whole_blocks"), ("line_stream/Whole", "proofs", "whole")],
     ["demand 1"], ["reply_of"]),
    ("demand 2", [("lines", "src", "answer_line"), ("lines", "src", "answered"),
                  ("lines_c", "src", "answer_line"), ("lines_c", "src", "answer_counted")], ["demand 1"], []),
    ("paper 1", [("profile/Causes", "proofs", "in_order"), ("profile/Causes", "proofs", "yes_is_cause"),
                 ("profile/Causes", "proofs", "one_call_more"), ("profile/Causes", "proofs", "a_call_has_a_cause"),
                 ("profile/Causes", "proofs", "apart"), ("step2_attempt/Calls", "proofs", "tried_apart"),
                 ("position_third_step2/Calls", "proofs", "shape_calls"),
                 ("position_third_step2/Calls", "proofs", "few_calls"),
                 ("position_third_step2/Calls", "proofs", "shape_verdict"),
                 ("position_third_step2/Calls", "proofs", "no_call"),
                 ("position_third_step2/Calls", "proofs", "some-call"),
                 ("line_places/ActsAs", "proofs", "acts_as")], ["demand 1", "demand 2"], []),
    ("paper 4", [("line_places/RestToRest", "proofs", "as_04")], ["demand 1", "demand 2"], []),
    ("paper 6", [("sqrt/Laws", "proofs", "marked_are"), ("profile/Marks", "proofs", "mark_apart"),
                 ("profile/Marks", "proofs", "kept-from_check"), ("profile_arrives/NanTimes", "proofs", "nan-time"),
                 ("step2_attempt/Calls", "proofs", "last_counts"),
                 ("step2_arrives/Marked", "proofs", "marked_never_yes"),
                 ("step2_arrives/Marked", "proofs", "marked_have_13")], ["demand 1", "demand 2", "paper 1"], []),
    ("demand 3", [("line_arrives/Theorem", "proofs", "yes_arrives"),
                  ("line_arrives/Theorem", "proofs", "yes_arrives_closely")], ["demand 1", "demand 2"], []),
    ("other theorems", [("sqrt/Nearest", "proofs", "sqrt_nearest"), ("float/Halving", "proofs", "halving"),
                        ("marked_moves/Table", "proofs", "marked_moves"),
                        ("worked_lines/Worked", "proofs", "worked_arrive")],
     ["demand 1", "demand 2", "paper 1", "paper 4", "paper 6", "demand 3"], []),
]

def read(path):
    with open(path, encoding="utf-8") as f:
        return f.read()


class File:
    """One .antt or .rt file: what its `use` lines bring, and its definitions."""

    def __init__(self, path):
        self.path = path
        self.text = read(path)
        self.brings = {}
        for m in re.finditer(r"^(?:ghost )?use ([^\s{;]+?)\.\{([^}]*)\};?$", self.text, re.M):
            for item in m.group(2).split(","):
                words = item.split(" as ")
                self.brings[words[-1].strip()] = (m.group(1), words[0].strip())
        self.defines = {}
        if path.endswith(".antt"):
            self.split()

    def split(self):
        """Declarations begin after a blank line or a comment; a comment right above one belongs to it."""
        lines = self.text.split("\n")
        block, module = [], []
        blocks = []
        for line in lines + [""]:
            if line.strip():
                block.append(line)
            elif block:
                blocks.append(block)
                block = []
        for block in blocks:
            code = [l for l in block if not re.match(r"\s*(--|//|use |ghost use |pub mod |mod |infix)", l)]
            if not code:
                continue
            head = code[0]
            if re.match(r"\s*module _", head):
                # its parameters belong to every declaration that is indented below it
                end = next((k for k, l in enumerate(block) if l.rstrip().endswith(" where")), 0)
                module = block[:end + 1]
                block = block[end + 1:]
                code = [l for l in block if not re.match(r"\s*--", l)]
                if not code:
                    continue
                head = code[0]
            inside = module if head.startswith("  ") else []
            m = re.match(r"\s*(?:(?:abbrev|unfoldable|opaque) )?(?:pub )?(?:(?:record|data) )?([^\s:({]+)", head)
            if m:
                block = [l for l in block if not re.match(r"(ghost )?use |(pub )?mod ", l)]
                self.defines[m.group(1)] = (block, inside)


FILES = {}


def file_of(path):
    if path not in FILES:
        FILES[path] = File(path) if os.path.exists(path) else None
    return FILES[path]


def declared(crate, name):
    """A struct or an enum of the code, with the comment above it."""
    for base, _, names in os.walk(os.path.join(CRATES, crate, "src")):
        for n in sorted(names):
            text = read(os.path.join(base, n))
            m = re.search(r"((?:^//[^\n]*\n)*)(?:^#\[[^\n]*\n)*^pub (?:struct|enum) " + name + r" \{.*?^\}", text,
                          re.S | re.M)
            if m:
                return os.path.join(base, n), m.group(0)
    return None


def resolve(here, name):
    """The file and the text that a name of a file stands for; None for the toolchain's."""
    if name in here.defines:
        return here, name
    if name not in here.brings:
        return None
    module, original = here.brings[name]
    m = re.match(r"Rattle\.(\w+)\.(specs|proofs)\.(.*)$", module)
    if not m:
        return None
    crate, rest = m.group(1), m.group(3).split(".")
    if rest[0] == "declared":
        kind = rest[-2] if rest[-1] == "TheVariants" else rest[-1]
        found = declared(crate, kind)
        return (found[0], kind, found[1]) if found else None
    target = file_of(os.path.join(CRATES, crate, m.group(2), *rest) + ".antt")
    if target is None:
        return None
    return target, original


def words(text):
    """Every name but those of fields, which stand after a point or before an equals sign in a record, and of what the
    text itself binds."""
    text = re.sub(r"--.*", "", text)
    text = re.sub(r"(?<=[^\s({\[,;.])(?:\.[^\s(){}\[\];,.]+)+", " ", text)
    text = re.sub(r"([{;]\s*)[^\s{};]+ =", r"\1", text)
    bound = set(" ".join(re.findall(r"[({]([^(){}:=]+) : ", text)).split())
    return set(re.findall(r"[^\s(){}\[\];,⌜⌝.]+", text)) - bound


def operators(here, text):
    """An operator such as ◌⊕◌ is written without its places."""
    found = set()
    text = re.sub(r"--.*", "", text)
    for name in list(here.brings) + list(here.defines):
        if "◌" in name:
            parts = [p for p in name.split("◌") if p]
            if parts and all(p in text for p in parts):
                found.add(name)
    return found


def type_of(block, name):
    """The type of a theorem, without its proof."""
    out = []
    for line in block:
        if re.match(r"\s*(unfolding|--)", line) or re.match(r"\s*" + re.escape(name) + r"(\s[^:]*)?=", line):
            if out:
                break
            continue
        if out and re.match(r"\s*" + re.escape(name) + r"\b", line):
            break
        out.append(line)
    return "\n".join(out)


def promise(crate, function):
    """The clauses of a function."""
    for base, _, names in os.walk(os.path.join(CRATES, crate, "src")):
        for n in sorted(names):
            path = os.path.join(base, n)
            m = re.search(r"fn " + function + r"\(.*?^ *((?:(?:requires|ensures) (?:\w+ )?\{.*?)+)^ *\{", read(path),
                          re.S | re.M)
            if m:
                return file_of(path), m.group(1)
    raise SystemExit("no promise of %s in %s" % (function, crate))


def start(root):
    crate, where, name = root
    if where == "src":
        return promise(crate, name)
    crate, module = crate.split("/")
    here = file_of(os.path.join(CRATES, crate, "proofs", module + ".antt"))
    block, inside = here.defines[name]
    return here, "\n".join(inside) + "\n" + type_of(block, name).split(":", 1)[1]


def reached(roots, cuts):
    """{(path, name): lines} of every definition reached."""
    seen = {}
    todo = [start(r) for r in roots]
    while todo:
        here, text = todo.pop()
        for name in sorted(words(text) | operators(here, text)):
            if name in cuts:
                continue
            target = resolve(here, name)
            if target is None:
                continue
            if len(target) == 3:
                path, kind, body = target
                if (path, kind) not in seen:
                    seen[path, kind] = len([l for l in body.split("\n") if l.strip()])
                continue
            there, original = target
            if original not in there.defines or (there.path, original) in seen:
                continue
            block, inside = there.defines[original]
            seen[there.path, original] = len(block)
            todo.append((there, "\n".join(inside + block)))
    return seen


def lists():
    all_of = {}
    out = []
    for title, roots, less, cuts in LISTS:
        found = reached(roots, cuts)
        for other in less:
            for key in all_of[other]:
                found.pop(key, None)
        all_of[title] = found
        out.append((title, found))
    return out


def table(found):
    by_file = {}
    for (path, name), n in found.items():
        by_file.setdefault(os.path.relpath(path, ROOT), []).append((name, n))
    order = [l.split(":")[0].strip() for l in read(os.path.join(ROOT, "crates.txt")).split("\n") if l and l[0] != "#"]
    keys = sorted(by_file, key=lambda p: (order.index(p.split("/")[1]), p))
    rows = ["| file | lines | definitions |", "|---|---|---|"]
    total = 0
    for path in keys:
        n = sum(x[1] for x in by_file[path])
        total += n
        names = ", ".join("`%s`" % name for name, _ in sorted(by_file[path]))
        rows.append("| %s | %d | %s |" % (path[len("crates/"):], n, names))
    return total, len(found), rows


def main():
    wanted = read(os.path.join(ROOT, "docs", "PROVED.md"))
    page, wrong = wanted, []
    for title, found in lists():
        total, count, rows = table(found)
        wrong += ["%s: %s of %s" % (title, name, path) for (path, name) in found if "/proofs/" in path]
        what = "definition" if count == 1 else "definitions"
        sizes = "%d %s, %s lines with their comments:" % (count, what, format(total, ","))
        text = "%s\n\n%s\n" % (sizes, "\n".join(rows))
        if "--write" not in sys.argv and "--check" not in sys.argv:
            print("## %s\n\n%s" % (title, text))
        mark = re.compile(r"(<!-- believed: %s -->\n).*?(<!-- end -->)" % re.escape(title), re.S)
        page = mark.sub(lambda m: m.group(1) + text + m.group(2), page)
    for w in wrong:
        print("stands in proofs/: " + w)
    if "--write" in sys.argv:
        with open(os.path.join(ROOT, "docs", "PROVED.md"), "w", encoding="utf-8") as f:
            f.write(page)
    if "--check" in sys.argv and (page != wanted or wrong):
        print("docs/PROVED.md: run docs/believed.py --write" if page != wanted else "")
        sys.exit(1)


main()
