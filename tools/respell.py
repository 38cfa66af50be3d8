#!/usr/bin/env python3
"""Respells the repository's own definitions and lemmas as today's Rattle spells them, once.

usage: tools/respell.py            at the top of the repository, after the toolchain's own script

Names that joined words with a dash join them with an underscore, facts and records are in camel case, and the crate
`bytes`, whose name a library of the toolchain has now, is `octets`. Names of functions, fields, strings, comments, inputs
and outputs stay as they are.
"""

import os
import re
import sys

CRATE = ("bytes", "octets")

# Names that would fall together with another one, and names that keep a dash since it stands between two functions.
GIVEN = {
    "getD-bytes": "get_or-bytes",
    "no-key-twice": "no_key_twice_lem",
    "empty-behind": "EmptyBehind",
}

KEEP_FIRST_DASH = ("length-", "take-", "put-put")

NAME = re.compile(r"[^\s(){}\[\],;.λ\"⟨⟩`]+")
DECLARED = re.compile(r"\s*(?:(?:abbrev|pub|unfoldable|private) )*([^\s:(){}]+(?: [^\s:(){}]+)*) : (.*)$")
TYPES = re.compile(r"\s*(?:pub )?(?:record|data) ([^\s:(){}]+)")
USED = re.compile(r"use ([\w.+'-]+?)\.\{([^}]*)\}")


def texts(ending, *folders):
    for top in sorted(os.listdir("crates")):
        for folder in folders:
            for where, dirs, files in os.walk(os.path.join("crates", top, folder)):
                dirs[:] = sorted(d for d in dirs if d != "out")
                for f in sorted(files):
                    if f.endswith(ending):
                        yield os.path.join(where, f)


def read(path):
    with open(path, encoding="utf-8") as f:
        return f.read()


def camel(name):
    return "".join(w[:1].upper() + w[1:] for w in re.split("[-_]", name))


def respelled(name):
    if name in GIVEN:
        return GIVEN[name]
    if name[:1].isupper() and ("-" in name or "_" in name):
        return camel(name)
    if name[:1].isupper() or "-" not in name:
        return name
    head = next((h for h in KEEP_FIRST_DASH if name.startswith(h)), "")
    return head + name[len(head):].replace("-", "_")


def declared():
    """Every name that the repository's own specs and lemmas declare; not the goals that Rattle names."""
    names, fields = set(), set()
    for path in texts(".antt", "specs", "proofs"):
        inside = False
        for line in read(path).splitlines():
            if line.startswith(("use ", "--", "mod ", "pub mod ", "pub use ")):
                continue
            it = TYPES.match(line)
            if it:
                names.add(it.group(1))
                inside = True
                continue
            it = DECLARED.match(line)
            if it and not it.group(2).startswith("goal."):
                for name in it.group(1).split():
                    names.add(name)
                    if inside and line[:1] == " ":
                        fields.add(name)
            elif line[:1] not in (" ", "") or it:
                inside = inside and line[:1] == " "
    return names - {"abbrev", "pub", "unfoldable"}, fields


def own(path):
    crates = set(os.listdir("crates"))
    parts = path.split(".")
    return len(parts) > 2 and parts[0] == "Rattle" and parts[1] in crates and parts[2] in ("specs", "proofs") and parts[-1] not in ("Goals", "Given") and "declared" not in parts


def foreign(text):
    """The names that a file takes from elsewhere, or that Rattle makes for it: they keep their spelling."""
    names = set()
    for path, listed in USED.findall(text):
        if not own(path):
            for it in listed.split(","):
                names.add(it.split(" as ")[-1].strip())
    return names


def turn(text, table, fields, kept):
    out, last = [], 0
    for it in NAME.finditer(text):
        name = it.group(0)
        if name not in table or name in kept:
            continue
        if text[it.start() - 1 : it.start()] == "." and not text[: it.start()].endswith((" .", "..", "..{")):
            before = text[max(0, it.start() - 200) : it.start()]
            whole = re.search(r"[^\s(){}\[\],;]*$", before).group(0)
            # A step of a proof, as c.STEP, is Rattle's name; a record's field, or the end of a path, is ours.
            if not (name in fields or whole.startswith("Rattle.")):
                continue
        out += [text[last : it.start()], table[name]]
        last = it.end()
    return "".join(out) + text[last:]


def in_code(line, table, fields, kept):
    at = line.find("--")
    code, comment = (line, "") if at < 0 or (at and line[at - 1] not in " \t") else (line[:at], line[at:])
    return turn(code, table, fields, kept) + comment


def in_clauses(text, table, fields):
    """Turns what stands in ghost imports, clauses and ghost items of a source file."""
    out = []
    depth, ghost = 0, False
    for line in text.split("\n"):
        code = line.strip()
        if depth == 0 and re.match(r"(pub )?(ghost|requires|ensures)\b", code):
            ghost = True
        if ghost and not code.startswith("//"):
            line = turn(line, table, fields, set())
            depth += line.count("{") - line.count("}")
            if depth <= 0:
                depth, ghost = 0, False
        out.append(line)
    return "\n".join(out)


def rename_crate():
    old, new = CRATE
    path = re.compile(r"(?<![\w.])%s::" % old)
    logic = re.compile(r"Rattle\.%s\." % old)
    for ending in (".rt", ".antt", ".edit"):
        for p in list(texts(ending, "src", "specs", "proofs", "must-fail")):
            text = read(p)
            turned = logic.sub("Rattle.%s." % new, path.sub(new + "::", text))
            if turned != text:
                with open(p, "w", encoding="utf-8") as f:
                    f.write(turned)
    lines = read("crates.txt").splitlines()
    with open("crates.txt", "w", encoding="utf-8") as f:
        f.writelines(re.sub(r"\b%s\b" % old, new, l) + "\n" for l in lines)
    os.rename("crates/" + old, "crates/" + new)


def main():
    names, fields = declared()
    table = {n: respelled(n) for n in names if respelled(n) != n}
    taken = {}
    for n in sorted(names):
        new = table.get(n, n)
        if new in taken:
            print(f"fall together: {taken[new]} and {n}")
        taken[new] = n
    rust = {}
    for p in texts(".rt", "src"):
        for w in re.findall(r"[A-Za-z_]\w*", re.sub(r"//.*", "", read(p))):
            rust.setdefault(w, set()).add(p)
    if "--list" in sys.argv:
        for n in sorted(table):
            if table[n] in rust and "-" in n:
                print(f"a word of the code: {n} -> {table[n]}: {' '.join(sorted(rust[table[n]])[:4])}")
        return
    for p in list(texts(".antt", "specs", "proofs")):
        text = read(p)
        kept = foreign(text)
        turned = "\n".join(in_code(l, table, fields, kept) for l in text.split("\n"))
        if turned != text:
            with open(p, "w", encoding="utf-8") as f:
                f.write(turned)
    for p in list(texts(".rt", "src")):
        text = read(p)
        turned = in_clauses(text, table, fields)
        if turned != text:
            with open(p, "w", encoding="utf-8") as f:
                f.write(turned)
    rename_crate()


if __name__ == "__main__":
    main()
