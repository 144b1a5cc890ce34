#!/usr/bin/env python3
"""Spells the repository's own definitions, lemmas, fields and constructors in snake case, as today's library does.

    tools/spell_names.py            at the top of a checkout, right after port.py: renames, once
    tools/spell_names.py --list     prints old and new, and the names that would fall together, and changes nothing

Five would fall together with another name of the repository; OTHER has theirs. A specs/Contracts.antt becomes
specs/Contracted.antt, since today's check makes a module of the old name.

A name is renamed if it is declared in a crate's specs/ or proofs/ and a part of it between dashes begins small and has
a capital further on. Types, modules and facts keep their capitals. Code, strings and exported names are left alone.
"""
import glob, os, re, sys

WORD = re.compile(r"[A-Za-z_][A-Za-z0-9_']*(?:-[A-Za-z0-9_'*]+)*")
DECLARED = re.compile(r"^\s*(?:(?:pub|abbrev|unfoldable|let|in)\s+)*([A-Za-z_][A-Za-z0-9_'-]*)(?:\s*:\s|$)")
OTHER = {
    "lastByte": "last_byte_at",
    "oneMore": "plus_one",
    "placeOk": "place_is_ok",
    "readBack": "round_of",
    "sizeOk": "queue_size_ok",
}
STRING = re.compile(r'"(?:[^"\\]|\\.)*"')


def is_camel(part):
    return re.match(r"[a-z][a-z0-9_]*[A-Z]", part) is not None


def snake(part):
    if part in OTHER:
        return OTHER[part]
    return re.sub(r"([a-z0-9])([A-Z])", lambda m: m[1] + "_" + m[2].lower(), part) if is_camel(part) else part


def antt_files():
    return sorted(glob.glob("crates/*/specs/**/*.antt", recursive=True) + glob.glob("crates/*/proofs/**/*.antt", recursive=True))


def declared_parts():
    parts, names = set(), set()
    for path in antt_files():
        for line in open(path, encoding="utf-8"):
            found = DECLARED.match(line)
            if found and not line.startswith(("use ", "--", "pub use ")):
                names.add(found[1])
                parts.update(p for p in found[1].split("-") if is_camel(p))
    return parts, names


def respell(text, parts):
    def word(m):
        return "-".join(snake(p) if p in parts else p for p in m[0].split("-"))

    return WORD.sub(word, text)


def respell_code(line, parts):
    # strings are what a program prints: they stay, but for the clauses, which have none
    out, at = [], 0
    for m in STRING.finditer(line):
        out += [respell(line[at : m.start()], parts), m[0]]
        at = m.end()
    return "".join(out + [respell(line[at:], parts)])


def main():
    parts, names = declared_parts()
    if "--list" in sys.argv:
        taken = {}
        for n in sorted(names):
            taken.setdefault("-".join(snake(p) if p in parts else p for p in n.split("-")), []).append(n)
        for p in sorted(parts):
            print(p, snake(p))
        for new, olds in taken.items():
            if len(olds) > 1:
                print("fall together:", new, olds)
        return
    texts = antt_files() + sorted(glob.glob("crates/*/src/**/*.rt", recursive=True))
    texts += sorted(glob.glob("crates/*/must-fail/*.edit")) + ["README.md"] + sorted(glob.glob("docs/**/*.md", recursive=True))
    for path in texts:
        old = open(path, encoding="utf-8").read()
        if path.endswith(".rt"):
            new = "\n".join(respell_code(l, parts) for l in old.split("\n"))
        else:
            new = respell(old, parts)
        if new != old:
            open(path, "w", encoding="utf-8").write(new)

    for path in glob.glob("crates/*/specs/Contracts.antt"):
        crate = path.split("/")[1]
        os.rename(path, path.replace("Contracts", "Contracted"))
        for other in antt_files() + sorted(glob.glob("crates/*/src/**/*.rt", recursive=True)):
            old = open(other, encoding="utf-8").read()
            new = old.replace(f"Rattle.{crate}.specs.Contracts.", f"Rattle.{crate}.specs.Contracted.")
            if other == f"crates/{crate}/specs/Lib.antt":
                new = new.replace("pub mod Contracts\n", "pub mod Contracted\n")
            if new != old:
                open(other, "w", encoding="utf-8").write(new)


main()
