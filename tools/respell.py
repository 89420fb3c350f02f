#!/usr/bin/env python3
"""Brings the names that this repository gives its own definitions and lemmas to one spelling.

usage: python3 tools/respell.py [FOLDER]     once, at the top of the repository

Words are in snake case (`data-word` is `data_word`, `readBlock` is `read_block`), types and relations
in camel case (`Block-of` is `BlockOf`). Names of the library, goals and the steps of a proof keep
theirs, and so do functions, strings and comments of src/. What falls together is printed and nothing
is written. The crate `refusal`, whose name six modules have too, becomes `numbered_refusal`.
"""
import os
import re
import sys

TOKEN = re.compile(r"[^\s(){}\[\],;.@\"`|]+")
DEFINED = re.compile(r"(?m)^\s*(?:abbrev |unfoldable |pub |open )*(?:record |data )?([^\s:(){},;.|]+) *(?::|\(|\{|$)")
LIBRARY = re.compile(r"use (?:Rattle\.std|borrow|lib|mathlib|Prim|native|denote)[\w.]*\.\{([^}]*)\}")
CLAUSE = re.compile(r"(?m)^\s*(?:requires|ensures|ghost)\b[^{;]*[{;]")


def files(top, ends):
    for folder, dirs, names in os.walk(os.path.join(top, "crates")):
        dirs[:] = sorted(d for d in dirs if d != "out")
        for name in sorted(names):
            if name.endswith(ends):
                yield os.path.join(folder, name)


def read(path):
    with open(path, encoding="utf-8") as file:
        return file.read()


# Where the plain spelling is taken: by a function of src/ that cites the definition, or by a crate.
TAKEN = {
    "form-number": "number_of_form",
    "mend-number": "number_of_mend",
    "port-number": "number_of_port",
    "reed-solomon": "reed_solomon_code",
}


def spelled(name):
    """A name of ours as the library would spell it."""
    if name in TAKEN:
        return TAKEN[name]
    if name[0].isupper():
        return "".join(part[0].upper() + part[1:] for part in name.split("-"))
    name = name.replace("getD", "get_or").replace("-", "_")
    return re.sub(r"(?<=[a-z])([A-Z])(?=[a-z])", lambda m: "_" + m.group(1).lower(), name)


def without_comments(text):
    return "\n".join(re.sub(r"(^|\s)--( .*)?$", "", line) for line in text.splitlines())


def own_names(top):
    own, goals = set(), set()
    for path in files(top, ".antt"):
        text = without_comments(read(path))
        own.update(DEFINED.findall(text))
        own.update(re.findall(r"\blet ([^\s:(){},;.|]+) *[:=]", text))
        own.update(re.findall(r"\bas ([A-Za-z][\w-]+)\b", text))
        goals.update(re.findall(r"goal\.([^\s(){}\[\],;.]+)", text))
    for path in files(top, ".rt"):
        own.update(re.findall(r"\bas ([A-Za-z]+-[\w-]+)", read(path)))
    ours = {n for n in own - goals if re.search(r"[a-zA-Z]", n) and not n.startswith(("_", "◌"))}
    changed = {n: spelled(n) for n in ours if re.search(r"\w-\w", n) or (n[0].islower() and re.search(r"[a-z][A-Z]", n))}
    return {n: s for n, s in changed.items() if n != s}


def respelled(text, names, kept):
    """The text with our names changed; a step of a proof, as `c.words-of`, is no name of ours."""

    def change(match):
        name = match.group(0)
        before = text[max(0, match.start() - 3):match.start()]
        step = re.search(r"(?<![\w'-])c\.$", before)
        return name if name in kept or step else names.get(name, name)

    return TOKEN.sub(change, text)


def ghost_parts(text):
    """Where the clauses, ghost members and imports of a source file stand."""
    for match in re.finditer(r"(?m)^\s*(?:pub )?ghost use [^;]*;", text):
        yield match.span()
    for match in CLAUSE.finditer(text):
        if "ghost use" in match.group(0):
            continue
        depth, at = 1, match.end()
        while depth and at < len(text):
            depth += {"{": 1, "}": -1}.get(text[at], 0)
            at += 1
        yield (match.end(), at)


def library_names(text):
    return {part.strip().split(" as ")[0] for group in LIBRARY.findall(text) for part in group.split(",")}


def source(text, names):
    for start, end in sorted(set(ghost_parts(text)), reverse=True):
        text = text[:start] + respelled(text[start:end], names, library_names(text)) + text[end:]
    return text


def fall_together(text, names, kept):
    words = set(TOKEN.findall(re.sub(r"Rattle\.[\w.]*\.(?=[\w{])", "", without_comments(text))))
    changed = {names[w]: w for w in words if w in names and w not in kept}
    return [(changed[s], s) for s in changed if s in words] + [(w, names[w]) for w in words if w in names and w not in kept and changed[names[w]] != w]


def rename_crate(top, old, new):
    folder = os.path.join(top, "crates", old)
    if os.path.isdir(folder):
        os.rename(folder, os.path.join(top, "crates", new))
    for path in [os.path.join(top, "crates.txt"), *files(top, (".antt", ".rt"))]:
        text = read(path)
        if path.endswith("crates.txt"):
            changed = re.sub(rf"\b{old}\b", new, text)
        else:
            changed = re.sub(rf"(?m)^(\s*(?:pub )?use ){old}::", rf"\g<1>{new}::", text).replace(f"Rattle.{old}.", f"Rattle.{new}.")
        write(path, changed)


def write(path, text):
    with open(path, "w", encoding="utf-8") as file:
        file.write(text)


def main(top):
    names = own_names(top)
    wrong, out = [], {}
    for path in files(top, (".antt", ".rt")):
        text = read(path)
        kept = library_names(text)
        if path.endswith(".antt"):
            wrong += [(path, *pair) for pair in fall_together(text, names, kept)]
            new = "\n".join(respelled(line.split("--")[0], names, kept) + line[len(line.split("--")[0]):] if not re.match(r"\s*--", line) else line for line in text.split("\n"))
        else:
            new = source(text, names)
        if new != text:
            out[path] = new
    if wrong:
        for path, old, new in wrong:
            print(f"falls together: {os.path.relpath(path, top)}: {old} -> {new}")
        return 1
    for path, text in out.items():
        write(path, text)
    rename_crate(top, "refusal", "numbered_refusal")
    print(f"{len(names)} names, {len(out)} files")
    return 0


if __name__ == "__main__":
    raise SystemExit(main(sys.argv[1] if len(sys.argv) > 1 else "."))
