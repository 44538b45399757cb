#!/usr/bin/env python3
"""Brings the repository's own definitions and lemmas to one spelling: words in snake case, as `block_bytes` for `blockBytes` and
`disc_bytes_column` for `disc-bytes-column`. Types, modules, functions of src/, strings, inputs and outputs keep their names.

usage: python3 tools/respell.py [--list] [FOLDER]    in the repository's top folder, or on the one named; --list tells the names and writes nothing
"""
import os
import re
import sys

# names that a library has under another name than ours
ALIASES = {
    "List·getD-append": "get_or-append",
    "List·getD-eq-default": "get_or-eq_default",
    "eqb·suc-zero": "eqb-suc-zero",
    "Bool·beq": "beq",
}
SPLIT = r"([\s(){}\[\],;.λ`\"|&!?*]+)"
DEFINED = re.compile(r"^(?:  )?(?:(?:abbrev|unfoldable|pub|private|opaque)\s+)*([^\s:(){}]+)\s*:(?!=)\s*(.*)")
INNER = re.compile(r"^ {4,}(?:(?:abbrev|unfoldable)\s+)*pub\s+([^\s:(){}]+)\s*:(?!=)\s*(.*)")  # in a module with parameters


def snake(name):
    name = re.sub(r"(?<=[a-z0-9])([A-Z]+)", lambda m: "_" + m.group(1).lower(), name)
    return name.replace("-", "_")


def files(top, endings):
    for folder, inner, names in os.walk(top):
        inner[:] = sorted(d for d in inner if d not in ("out", "target", ".git"))
        for name in sorted(names):
            if name.endswith(endings):
                yield os.path.join(folder, name)


def own_names(top):
    found = {}
    for path in files(os.path.join(top, "crates"), (".antt",)):
        with open(path, encoding="utf-8") as f:
            for line in f:
                m = DEFINED.match(line.rstrip("\n")) or INNER.match(line.rstrip("\n"))
                if not m or line.lstrip().startswith("--"):
                    continue
                name, sort = m.groups()
                if sort.startswith(("tie.", "goal.")) or name.startswith(("decreases-", "invariant-")):
                    continue  # a name that Rattle makes
                if re.match(r"^[a-z]", name) and (re.search(r"[A-Z]", name) or "-" in name):
                    found[name] = snake(name)
    found["listedText"], found["lastText"] = "listed_text", "last_text"  # bound in proofs
    defined = {new for old, new in found.items() if "-" not in old}
    for old, new in found.items():
        if "-" in old and new in defined:
            found[old] = new + "_lem"  # a lemma that would have its definition's name
    if "inBuffer" in found:
        found["in_buffer"] = "in_buffer_lem"  # `in-buffer` where port.py has been, beside the definition `inBuffer`
    return found


def respelled(text, names, kebab):
    parts = re.split(SPLIT, text)
    for i in range(0, len(parts), 2):
        word = parts[i]
        if word in names and (kebab or "-" not in word):
            parts[i] = names[word]
        elif word in ALIASES:
            parts[i] = ALIASES[word]
    return "".join(parts)


def quoted(text, names):
    """Prose: a name with a dash only between backquotes."""
    parts = text.split("`")
    return "`".join(respelled(p, names, i % 2 == 1) for i, p in enumerate(parts))


def antt(line, names):
    m = re.match(r"^((?:[^\"]|\"[^\"]*\")*?)((?:^|\s)--(?:\s.*|$))", line)
    code, comment = (m.group(1), m.group(2)) if m else (line, "")
    strings = re.split(r"(\"[^\"]*\")", code)
    code = "".join(s if s.startswith('"') else respelled(s, names, True) for s in strings)
    return code + quoted(comment, names)


def rt(line, names):
    m = re.match(r"^((?:[^\"/]|\"(?:[^\"\\]|\\.)*\"|/(?!/))*)(//.*)?$", line)
    code, comment = (m.group(1), m.group(2) or "") if m else (line, "")
    strings = re.split(r"(b?\"(?:[^\"\\]|\\.)*\")", code)
    code = "".join(s if '"' in s else respelled(s, names, False) for s in strings)
    return code + quoted(comment, names)


def main(argv):
    listing = "--list" in argv
    rest = [a for a in argv if a != "--list"]
    top = rest[0] if rest else "."
    names = own_names(top)
    if listing:
        for old in sorted(names):
            print(old, names[old])
        return 0
    for path in files(os.path.join(top, "crates"), (".antt", ".rt")):
        turn = antt if path.endswith(".antt") else rt
        with open(path, encoding="utf-8") as f:
            old = f.read()
        new = "\n".join(turn(line, names) for line in old.split("\n"))
        new = re.sub(r"(get_or-append|get_or-eq_default|eqb-suc-zero|beq) as \1(?=[,}])", r"\1", new)
        if new != old:
            with open(path, "w", encoding="utf-8") as f:
                f.write(new)
    for path in files(top, (".md",)):
        if os.path.basename(path).startswith("PORT"):
            continue
        with open(path, encoding="utf-8") as f:
            old = f.read()
        new = "\n".join(quoted(line, names) for line in old.split("\n"))
        if new != old:
            with open(path, "w", encoding="utf-8") as f:
                f.write(new)
    return 0


if __name__ == "__main__":
    sys.exit(main(sys.argv[1:]))
