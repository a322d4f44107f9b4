#!/usr/bin/env python3
"""Brings the names of definitions, fields and lemmas to one spelling.

Types and facts are in upper camel case, everything else in snake case; a dash is kept where it
joins two names, as in length-told and walk-append. Run once at the top of the repository, after
the toolkit's own script; with --dry it only lists what it would do, and what falls together.
"""
import collections
import glob
import os
import re
import sys

EDGE = r"\s(){}\[\],;.⌜⌝\"`"
TOKEN = re.compile(r"[^" + EDGE + r"]+")
DEFINED = re.compile(
    r"^\s*(?:abbrev |unfoldable )?(?:pub )?(?:abbrev )?(?:record |data )?"
    r"([^\s(){}\[\],;.:]+) (?:\([^\n]*?\) |\{[^\n]*?\} )*:(?=\s)(.*)$",
    re.M,
)
LOCAL = re.compile(r"\blet ([^\s(){}\[\],;.:]+) [=:]")
# What a function's own steps and goals are called is made by the prover.
STEP = re.compile(r"(?:^|[^" + EDGE + r"])?\b[cla]$")


def antt_files():
    found = glob.glob("crates/*/specs/**/*.antt", recursive=True)
    found += glob.glob("crates/*/proofs/**/*.antt", recursive=True)
    return sorted(f for f in found if "/out/" not in f)


def rust_files():
    return sorted(f for f in glob.glob("crates/*/src/**/*.rt", recursive=True))


def without_comments(text):
    return "\n".join("" if l.lstrip().startswith("--") else l for l in text.split("\n"))


def snake(word):
    word = re.sub(r"([a-z0-9])([A-Z])", lambda m: m.group(1) + "_" + m.group(2).lower(), word)
    return word.replace("-", "_")


# A type of the source has the first name, so the fact gets another.
FACTS = {"Borne-out": "IsBorneOut", "Word-fault": "IsWordFault", "in-getD": "in-get_or"}


def respelt(name):
    if name in FACTS:
        return FACTS[name]
    name = name.replace("getD", "get_or")
    if name[0].isupper():
        return "".join(p[:1].upper() + p[1:] for p in re.split(r"[-_]", name))
    for front in ("length", "get_or"):
        if re.match(front + r"[-_]", name):
            return front + "-" + snake(name[len(front) + 1 :])
    if re.search(r"[-_]append$", name):
        return snake(name[:-7]) + "-append"
    return snake(name)


def own_names():
    names = set()
    for f in antt_files():
        text = without_comments(open(f).read())
        for m in DEFINED.finditer(text):
            if not re.match(r"\s*goal\.", m.group(2)):
                names.add(m.group(1))
        for m in LOCAL.finditer(text):
            names.add(m.group(1))
    return {n for n in names if re.match(r"[A-Za-z]", n)}


def library_names():
    names = set()
    for f in antt_files():
        for m in re.finditer(r"^use (\S+?)\.\{([^}]*)\}", open(f).read(), re.M):
            own = re.match(r"Rattle\.(\w+)\.", m.group(1))
            if not (own and os.path.isdir("crates/" + own.group(1))):
                names |= {n.strip().split(" as ")[0] for n in m.group(2).split(",")}
    return names


def turn(text, table, comment, answers):
    lines = []
    for line in text.split("\n"):
        if line.lstrip().startswith(comment):
            lines.append(line)
            continue

        def new(m):
            name = m.group(0)
            if name not in table:
                return name
            if answers and re.search(r"(?:^|[" + EDGE + r"])[cla]\.$", line[: m.start()]):
                return name
            return table[name]

        lines.append(TOKEN.sub(new, line))
    return "\n".join(lines)


def main():
    dry = "--dry" in sys.argv
    library = library_names()
    table = {}
    for n in sorted(own_names() - library):
        if respelt(n) != n:
            table[n] = respelt(n)
    seen = collections.Counter()
    for f in antt_files() + rust_files():
        seen.update(TOKEN.findall(open(f).read()))
    back = collections.defaultdict(list)
    for old, new in table.items():
        back[new].append(old)
    for new, olds in sorted(back.items()):
        if len(olds) > 1 or new in seen:
            print("falls together:", new, olds, "seen" if new in seen else "")
    for old in sorted(table):
        if dry:
            print(old, "->", table[old])
    if dry:
        return
    for f in antt_files():
        answers = os.path.basename(f) in ("Answers.antt", "Invariants.antt", "Proof.antt")
        text = open(f).read()
        open(f, "w").write(turn(text, table, "--", answers))
    for f in rust_files():
        text = open(f).read()
        open(f, "w").write(turn(text, table, "//", False))
    for f in sorted(glob.glob("docs/*.md") + ["README.md"]):
        text = open(f).read()
        turned = re.sub(r"`[^`\n]+`", lambda m: TOKEN.sub(lambda t: table.get(t.group(0), t.group(0)), m.group(0)), text)
        open(f, "w").write(turned)
    print(len(table), "names respelt")


main()
