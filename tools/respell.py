#!/usr/bin/env python3
"""Brings the repository's own names to today's spelling: definitions, lemmas and fields in snake case.

usage: tools/respell.py          at the top of a repository that port.py has turned
       tools/respell.py --list   prints the names and what they become, and writes nothing

A name is taken where specs/ or a lemma file of proofs/ declares it. Names that a function's own proof file makes (goals, invariants), names that the
library has too, and names of src/ stay. Types and modules keep their case.
"""
import os, re, subprocess, sys

KIT = "/opt/rattle/rattle"
TOKEN = re.compile(r"[^\s(){};,.@\"|\[\]]+")
DECLARED = re.compile(r"^\s*(?:abbrev |unfoldable )?(?:pub )?([^\s:=(){}.,;]+) :(?: |$)")
FIELD_LINE = re.compile(r"^\s+pub ([^\s:=(){}.,;]+(?: [^\s:=(){}.,;]+)*) :(?: |$)")


# Lemmas that port.py gave the name that a definition in the same file gets here.
CLASHES = {
    "crates/boundaries/proofs/Canonical.antt": {"code-in": "code_in_lem", "index_in": "index_in_lem"},
    "crates/scripts/proofs/Checking.antt": {"ends_by": "ends_by_lem"},
    "crates/service_example/proofs/Example.antt": {"answer_at": "answer_at_lem"},
    "crates/trace/proofs/Placing.antt": {"frame_on": "frame_on_lem"},
}


def lemma_files():
    for top, dirs, files in os.walk("crates"):
        dirs[:] = sorted(d for d in dirs if d not in ("out", "target"))
        for name in sorted(files):
            if name.endswith(".antt"):
                yield os.path.join(top, name)


def is_proof(path):
    return "/proofs/" in path and os.path.basename(path).split(".")[0] in ("Proof", "Answers", "Invariants")


def snake(name):
    if re.match(r"[A-Z]", name):
        return name
    s = re.sub(r"([a-z0-9])([A-Z])", lambda m: m.group(1) + "_" + m.group(2).lower(), name)
    return s.replace("-", "_")


def library_names():
    found = set()
    for top, dirs, files in os.walk(KIT):
        dirs[:] = [d for d in dirs if d not in ("examples", "tests")]
        for name in files:
            if name.endswith(".antt"):
                with open(os.path.join(top, name), encoding="utf-8") as f:
                    for line in f:
                        m = DECLARED.match(line)
                        if m:
                            found.add(m.group(1))
    return found


def main():
    names = {}
    for path in lemma_files():
        if is_proof(path):
            continue
        with open(path, encoding="utf-8") as f:
            for line in f:
                m = DECLARED.match(line) or FIELD_LINE.match(line)
                if m:
                    for n in m.group(1).split():
                        if re.match(r"[a-z][\w'-]*$", n) and snake(n) != n:
                            names[n] = snake(n)
    library = library_names()
    both = sorted(n for n in names if n in library)
    for n in both:
        print("library has it too:", n)
        del names[n]
    back = {}
    for n, s in names.items():
        back.setdefault(s, []).append(n)
    # where a definition and a lemma would fall together, the lemma's name gets what the kit's own lemmas have there
    for s, ns in sorted(back.items()):
        if len(ns) > 1:
            lemma = [n for n in ns if "-" in n]
            if len(ns) != 2 or len(lemma) != 1:
                sys.exit(f"fall together: {ns}")
            names[lemma[0]] = s + "_lem"
    if "--list" in sys.argv:
        for n in sorted(names):
            print(n, "->", names[n])
        return
    paths = list(lemma_files())
    for top, dirs, files in os.walk("crates"):
        dirs[:] = [d for d in dirs if d not in ("out", "target")]
        paths += [os.path.join(top, n) for n in files if n.endswith(".rt")]
    changed = 0
    for path in paths:
        with open(path, encoding="utf-8") as f:
            text = f.read()
        own = set()
        if is_proof(path):
            own = {m.group(1) for m in map(DECLARED.match, text.split("\n")) if m}
        local = CLASHES.get(path, {})
        text = TOKEN.sub(lambda m: local.get(m.group(0), m.group(0)), text)
        tokens = set(TOKEN.findall(text))
        for n in sorted(tokens & set(names) - own):
            if names[n] in tokens:
                if not path.endswith(".rt") and not is_proof(path):
                    print(f"both in one file: {path}: {n} and {names[n]}")
        new = TOKEN.sub(lambda m: names[m.group(0)] if m.group(0) in names and m.group(0) not in own else m.group(0), text)
        if new != text:
            changed += 1
            with open(path, "w", encoding="utf-8") as f:
                f.write(new)
    print(f"respelt: {len(names)} names in {changed} files")


main()
