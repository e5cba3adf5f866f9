#!/usr/bin/env python3
"""Small changes of the code at random, each put to the prover: which ones does it accept?

    bench/mutate.py SEED COUNT [--jobs N] [--only CRATE,CRATE] [--seconds S]

COUNT changes that compile are drawn from the code of the library crates: up to three in each crate, the rest in
proportion to its lines of code, and in a crate every kind of change (KINDS in bench/changes.py) as likely as another.
Programs are left out (their stored runs hold them), and theorem crates have no code.

A draw that the front end rejects does not count, and another is drawn. Every other one is made in a scratch copy of the
repository and checked there by `rt dev`, of its own crate alone and over the unchanged crate's incremental folder. What
is accepted is checked again from an empty folder. A public constant has no contract of its own and is held where it is
used: if its crate accepts it, the crates above are checked too, until one refuses ('refused above'). The same draw is
made again by the same SEED and COUNT, on the same code.

A refusal is at a fact that no longer holds, or at the proof's shape: a path, a name, a number of parts or something to
rewrite that the proof file counts on. The first error tells, by its words (SHAPE below). 'same machine code' marks a
change that leaves the static libraries of the crates with exported functions as they were, though another change of
that function does not.

It was written for rattle-kit-5b, whose `rt dev` and rattle-cases it calls: with today's kit it does not run, and
`rt plant` in a crate's folder tries wrong bodies in its place.

It needs a repository that is checked (`rt check`), and writes target/mutate/SEED-COUNT.txt: tables by crate and by
kind, a line for each change, and under it the prover's first error. All that the prover said is in a folder beside it.
"""
import argparse
import concurrent.futures
import hashlib
import itertools
import os
import pathlib
import random
import re
import shutil
import signal
import subprocess
import sys
import tempfile
import threading
import time

sys.dont_write_bytecode = True
from changes import Names, Reader, places_of, tokens_of

ROOT = pathlib.Path(__file__).resolve().parent.parent
KIT = pathlib.Path(os.environ.get("RATTLE_HOME", "/opt/rattle"))
OWN = KIT / "on" / os.uname().machine

# Words of the prover by which a proof does not fit the code's shape, whatever the facts.
SHAPE = re.compile(
    r"has no (?:field|`)|no occurrence of the path|this pattern needs|expected type `tie\.|not in scope|unknown name"
    r"|constructor pattern|takes? \d+ argument|too many|too few|is not a function|is not a record|expected `[\w-]+` in"
    # a test that is a constant now has a fact of another type
    r"|has `Prim\.Native\.Nat\.\S+ \(expected\)[^(]* the other has `mathlib\.Core\.(?:Bool\.Bool|Path\._≡_)`"
)


class Change:
    def __init__(self, crate, path, place, text, found):
        self.crate, self.path, self.place = crate, path, place
        self.kind, start, end, new, self.short = found
        self.text = text[:start] + new + text[end:]
        self.line = text.count("\n", 0, start) + 1
        self.verdict = self.why = self.first = self.code = ""
        self.seconds = 0.0

    def __str__(self):
        marks = ", ".join(m for m in (self.verdict, self.why, self.code) if m)
        return (f"{marks} ({self.seconds:.0f} s) | {self.crate} {self.path.name}:{self.line} {self.place.name}"
                f" | {self.kind}: {self.short}")


class Repository:
    def __init__(self):
        self.needs, self.names, self.files = {}, Names(), {}
        for line in (ROOT / "crates.txt").read_text().splitlines():
            name, colon, needs = line.split("#")[0].partition(":")
            if colon:
                self.needs[name.strip()] = needs.split()
        for crate in self.needs:
            self.files[crate] = []
            for path in sorted((ROOT / "crates" / crate / "src").rglob("*.rt")):
                text = path.read_text()
                toks = tokens_of(text)
                self.files[crate].append((path.relative_to(ROOT), text, toks, places_of(toks, self.names)))
        exporters = [c for c, files in self.files.items() if any("#[no_mangle]" in f[1] for f in files)]
        # the one that reaches most is compiled first
        self.exporters = sorted(exporters, key=lambda c: -len(self.reached(c)))

    def code_lines(self):
        """Lines of code by crate, of the libraries that have any."""
        lines = {}
        for crate, files in self.files.items():
            spots = {(path, text.count("\n", 0, t.start))
                     for path, text, toks, places in files for p in places for t in toks[p.start:p.end]}
            if spots and not (ROOT / "crates" / crate / "src" / "main.rt").exists():
                lines[crate] = len(spots)
        return lines

    def changes(self, crate):
        return [Change(crate, path, place, text, found) for path, text, toks, places in self.files[crate]
                for place in places for found in Reader(text, toks, place, self.names).read()]

    def reached(self, crate):
        """The crates below, in the order of crates.txt; then the kit's libraries."""
        below, todo = set(), [crate]
        while todo:
            more = set(self.needs.get(todo.pop(), [])) - below
            below |= more
            todo += more
        return [c for c in self.needs if c in below] + sorted(below - set(self.needs))


class Copy:
    """A scratch copy of the repository, in which one change at a time is made and taken back."""

    def __init__(self, repository, folder):
        self.repository, self.root, self.archives = repository, pathlib.Path(folder), {}
        self.root.mkdir()
        for part in ("crates", "crates.txt", "target"):
            subprocess.run(["cp", "-a", ROOT / part, self.root / part], check=True)
        for part in ("mutate", "inc"):
            shutil.rmtree(self.root / "target" / part, ignore_errors=True)

    def run(self, words, seconds):
        """Exit status, or None where it took too long, and what was said."""
        job = subprocess.Popen(["nice", "-n", "19", *map(str, words)], cwd=self.root, start_new_session=True, text=True,
                               errors="replace", stdout=subprocess.PIPE, stderr=subprocess.STDOUT)
        try:
            said, _ = job.communicate(timeout=seconds)
            return job.returncode, said
        except subprocess.TimeoutExpired:
            os.killpg(job.pid, signal.SIGKILL)
            return None, job.communicate()[0]

    def make(self, change):
        (self.root / change.path).write_text(change.text)

    def undo(self, change):
        shutil.copyfile(ROOT / change.path, self.root / change.path)

    def compile(self, crate, archive):
        """Compiles a library with no proof, as far as it goes: one without exports makes no archive."""
        words = [OWN / "bin" / "rattle-cases", "--toolchain", OWN / "toolchain", "--staticlib", archive,
                 self.root / "crates" / crate / "src" / "lib.rt", "--crate-name", crate,
                 "--lib", f"std={KIT}/libs/std/src/lib.rt"]
        for d in self.repository.reached(crate):
            home = self.root / "crates" if d in self.repository.needs else KIT / "libs"
            words += ["--lib", f"{d}={home / d / 'src' / 'lib.rt'}"]
        return self.run(words, 120)[1]

    def compiles(self, change):
        self.make(change)
        said = self.compile(change.crate, self.root / "probe.a")
        self.undo(change)
        return "front end rejected" not in said

    def archive(self, crate):
        out = self.root / "export.a"
        out.unlink(missing_ok=True)
        self.compile(crate, out)
        return hashlib.sha256(out.read_bytes()).hexdigest() if out.exists() else "none"

    def alters(self, change):
        """Whether some exported library comes out other than without the change."""
        some = [e for e in self.repository.exporters if change.crate in [e, *self.repository.reached(e)]]
        for e in some:
            if e not in self.archives:
                self.archives[e] = self.archive(e)
        self.make(change)
        found = any(self.archive(e) not in (self.archives[e], "none") for e in some)
        self.undo(change)
        return found

    def machine_code(self, change, others):
        if self.alters(change):
            return ""
        return "same machine code" if any(map(self.alters, others[:6])) else "in no exported library"

    def inc(self, crate):
        return self.root / "target" / "inc" / crate

    def begin(self, crate):
        """Proves the unchanged crate from nothing; every change of it starts from the folder that this leaves."""
        status, said = self.run(["rt", "dev", crate], 600)
        if status != 0:
            raise RuntimeError(f"{crate} is not proved unchanged:\n{said}")
        shutil.copytree(self.inc(crate), self.root / "base" / crate)

    def judge(self, change, seconds, log):
        shutil.rmtree(self.inc(change.crate))
        shutil.copytree(self.root / "base" / change.crate, self.inc(change.crate))
        self.make(change)
        began = time.monotonic()
        status, said = self.run(["rt", "dev", change.crate], seconds)
        change.seconds = time.monotonic() - began
        log.write_text(f"{change}\n{said}")
        if status is None:
            change.verdict = "out of time"
        elif status == 0:
            self.confirm(change)
        elif "logic=not-proved" in said:
            change.verdict, change.first = "refused", first_error(said, self.root)
            change.why = "shape" if SHAPE.search(change.first) else "fact"
        else:
            change.verdict = "not compiled"
        self.undo(change)

    def confirm(self, change):
        """Accepted by its crate: once more from nothing, and a public constant by the crates that use it."""
        shutil.rmtree(self.inc(change.crate))
        status, _ = self.run(["rt", "dev", change.crate], 600)
        change.verdict = "accepted" if status == 0 else "accepted over the incremental folder alone"
        if status != 0 or not change.place.public_constant:
            return
        kept = self.root / "kept"
        subprocess.run(["cp", "-a", self.root / "target", kept], check=True)
        for crate, needs in self.repository.needs.items():
            if change.verdict == "accepted" and change.crate in needs:
                status, said = self.run(["rt", "check", crate], 900)
                if status == 1:
                    change.verdict, change.why, change.first = "refused above", crate, first_error(said, self.root)
        shutil.rmtree(self.root / "target")
        kept.rename(self.root / "target")


def first_error(said, root):
    """The first thing that the prover does not admit for its own sake."""
    lines = said.replace(f"{root}/", "").splitlines()
    for n, line in enumerate(lines):
        if re.match(r"\S+: error: |note: \S+: it is not proved|fn \S+: no proof", line) and "not admitted" not in line:
            more = itertools.takewhile(lambda s: s.startswith("  "), lines[n + 1:])
            return " ".join(map(str.strip, [line, *more]))[:600]
    return next((line for line in lines if "not proved" in line), "")[:600]


def quotas(lines, count):
    """How many changes each crate gets: a few each, the rest by lines of code."""
    least = max(1, min(3, count // (2 * len(lines))))
    shares = {c: (count - least * len(lines)) * n / sum(lines.values()) for c, n in lines.items()}
    found = {c: least + int(s) for c, s in shares.items()}
    for c in sorted(lines, key=lambda c: int(shares[c]) - shares[c])[:count - sum(found.values())]:
        found[c] += 1
    return found


def draw(copy, pool, wanted, rng):
    """Changes that compile, of one kind as likely as of another; and those that do not."""
    kinds = {}
    for change in pool:
        kinds.setdefault(change.kind, []).append(change)
    taken, rejected = [], []
    while len(taken) < wanted and kinds:
        kind = rng.choice(sorted(kinds))
        change = kinds[kind].pop(rng.randrange(len(kinds[kind])))
        if not kinds[kind]:
            del kinds[kind]
        if copy.compiles(change):
            taken.append(change)
        else:
            change.verdict = "not compiled"
            rejected.append(change)
    return taken, rejected


def table(key, changes):
    """Counts by crate or by kind: `fact` and `shape` are the refused ones."""
    columns = {
        "drawn": lambda c: True,
        "not compiled": lambda c: c.verdict == "not compiled",
        "compiled": lambda c: c.verdict != "not compiled",
        "fact": lambda c: c.verdict == "refused" and c.why == "fact",
        "shape": lambda c: c.verdict == "refused" and c.why == "shape",
        "above": lambda c: c.verdict == "refused above",
        "accepted": lambda c: c.verdict.startswith("accepted"),
        "out of time": lambda c: c.verdict == "out of time",
    }
    text = [f"{'':<24}" + "".join(f"{name:>14}" for name in columns)]
    for name in [*dict.fromkeys(getattr(c, key) for c in changes), "all"]:
        some = [c for c in changes if name in (getattr(c, key), "all")]
        text.append(f"{name:<24}" + "".join(f"{sum(map(test, some)):>14}" for test in columns.values()))
    return "\n".join(text)


def work(copy, queue, lock, pools, seconds, logs, rng_of):
    """Takes crate after crate from the queue."""
    while True:
        with lock:
            if not queue:
                return
            crate, some = queue.pop(0)
        copy.begin(crate)
        for n, change in enumerate(some):
            copy.judge(change, seconds, logs / f"{crate}-{n + 1}.txt")
            others = [c for c in pools[crate] if c.place is change.place and c is not change]
            rng_of(crate, n).shuffle(others)
            if change.verdict != "not compiled":
                change.code = copy.machine_code(change, others)
            with lock:
                print(change, flush=True)


def main():
    words = argparse.ArgumentParser(description=__doc__.splitlines()[0])
    words.add_argument("seed")
    words.add_argument("count", type=int)
    words.add_argument("--jobs", type=int, default=1, help="copies side by side")
    words.add_argument("--only", default="", help="these crates alone, with commas between")
    words.add_argument("--seconds", type=int, default=300, help="for one check, before it counts as out of time")
    asked = words.parse_args()
    began = time.monotonic()
    repository = Repository()
    lines = repository.code_lines()
    if asked.only:
        lines = {c: lines[c] for c in asked.only.split(",")}
    pools = {c: repository.changes(c) for c in lines}
    logs = ROOT / "target" / "mutate" / f"{asked.seed}-{asked.count}"
    shutil.rmtree(logs, ignore_errors=True)
    logs.mkdir(parents=True)

    def rng_of(*names):
        return random.Random("/".join(map(str, (asked.seed, *names))))

    with tempfile.TemporaryDirectory(prefix="mutate-") as scratch:
        copies = [Copy(repository, f"{scratch}/{n}") for n in range(asked.jobs)]
        drawn, rejected = {}, []
        for crate, wanted in quotas(lines, asked.count).items():
            drawn[crate], more = draw(copies[0], pools[crate], wanted, rng_of(crate))
            rejected += more
        queue, lock = sorted(drawn.items(), key=lambda d: -len(d[1])), threading.Lock()
        with concurrent.futures.ThreadPoolExecutor(asked.jobs) as jobs:
            for job in [jobs.submit(work, c, queue, lock, pools, asked.seconds, logs, rng_of) for c in copies]:
                job.result()
    every = [c for some in drawn.values() for c in some] + rejected
    counts = table("crate", every) + "\n\n" + table("kind", every)
    report = [f"bench/mutate.py {' '.join(sys.argv[1:])}: {time.monotonic() - began:.0f} s, of "
              f"{sum(map(len, pools.values()))} changes", "", counts, ""]
    report += [f"{c}\n    {c.first}" if c.first else str(c) for c in every]
    logs.with_suffix(".txt").write_text("\n".join(report) + "\n")
    print(counts)


if __name__ == "__main__":
    main()
