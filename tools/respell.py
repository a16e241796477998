#!/usr/bin/env python3
"""Brings the repository's own definitions and lemmas to snake case, once, behind the kit's port.py.

usage: python3 tools/respell.py [--check]      at the top of the repository

A name that specs/ or a lemma file of proofs/ declares turns from `dimsOf` to `dims_of` and from `same-checks` to `same_checks`,
wherever it is used in crates/. A lemma that would have its function's name, or one that its file uses for something else, gets
`_lem`. Names of src/, of the kit and those that the kit makes of the code stay. --check writes nothing and lists what would fall
together.
"""

import collections
import os
import re
import sys

# Names that an import or a binder gives.
ALIASES = (
    "chainSheet fedBy outFirst outSecond listLength rawRequest laidText differenceOf scaledOf repeatsOf productOf squaredOf "
    "listedIn rowLengthIn freshState zFirst zEnd yFirst yEnd xFirst xEnd"
).split()
WORD = r"[^\s(){}.;,@\"«»\[\]`|]+"
DECLARED = re.compile(
    r"^\s*(?:(?:pub|unfoldable|abbrev|opaque|private|abstract|module|record|data)\s+)*(" + WORD + r")(?=[^\n]*:)"
)
USE = re.compile(r"^\s*(?:pub )?(?:ghost )?use ([\w.']+)(?:\.\{([^}]*)\}| as ([\w']+))", re.M)


def snake(name):
    return re.sub(r"([a-z0-9])([A-Z])", r"\1_\2", name.replace("-", "_")).lower()


def files():
    for folder, dirs, names in os.walk("crates"):
        dirs[:] = sorted(d for d in dirs if d != "out")
        for name in sorted(names):
            if name.endswith((".antt", ".rt")):
                yield os.path.join(folder, name)


def is_lemma_file(path):
    parts = path.split("/")
    return len(parts) == 4 and parts[2] in ("specs", "proofs")


def module_of(path):
    parts = path[: -len(".antt")].split("/")
    return ".".join(["Rattle"] + parts[1:])


def alone(text):
    """The words of a text that stand behind no dot."""
    return {m.group() for m in re.finditer(WORD, text) if text[m.start() - 1 : m.start()] != "."}


def plan(texts, crates):
    declared = collections.defaultdict(set)
    for path, text in texts.items():
        if is_lemma_file(path):
            for line in text.split("\n"):
                if not line.lstrip().startswith("--") and not line.startswith("use "):
                    found = DECLARED.match(line)
                    if found:
                        declared[found.group(1)].add(path)
    foreign = set()
    for text in texts.values():
        for module, items, _ in USE.findall(text):
            parts = module.split(".")
            if parts[0] != "Rattle" or (len(parts) > 1 and parts[1] not in crates):
                foreign |= {i.strip().split(" as ")[0].strip() for i in items.split(",")}
    turned = {}
    for name in declared:
        if re.fullmatch(r"[a-z][\w'\-]*", name) and name not in foreign and snake(name) != name:
            turned[name] = snake(name)
    for name in ALIASES:
        turned[name] = snake(name)
    words = {path: alone(text) for path, text in texts.items()}
    # a lemma beside a definition of that name
    twice = collections.defaultdict(list)
    for old, new in turned.items():
        twice[new].append(old)
    for old, new in list(turned.items()):
        if "-" in old and (len(twice[new]) > 1 or new in declared or any(old in w and new in w for w in words.values())):
            turned[old] = new + "_lem"
    # a lemma that has the new name of a definition already
    moved = collections.defaultdict(dict)
    for old, new in turned.items():
        if "-" not in old and new in declared:
            for home in declared[new]:
                if "/specs/" in home:
                    continue
                module = module_of(home)
                for path, text in texts.items():
                    has = path == home or any(
                        module == m and new in [i.strip() for i in items.split(",")] for m, items, _ in USE.findall(text)
                    )
                    if has:
                        moved[path][new] = new + "_lem"
    return turned, moved, declared, words


def rewrite(path, text, turned, moved):
    in_function = not is_lemma_file(path) and path.endswith(".antt")
    brought, aliases = set(), set()
    for module, items, alias in USE.findall(text):
        for i in items.split(","):
            brought |= set(i.strip().split(" as ")[:1])
        if alias:
            aliases.add(alias)
        aliases |= {i.strip().split(" as ")[-1].strip() for i in items.split(",")}
    said = {m.start() for m in re.finditer(WORD, text)} and [
        (m.start(), m.end()) for m in re.finditer(r"\"(?:[^\"\\\n]|\\.)*\"", text)
    ]

    def one(m):
        name = m.group()
        if path.endswith(".rt") and "-" in name:
            return name
        if path.endswith(".rt") and any(a <= m.start() < b for a, b in said):
            return name
        dotted = text[m.start() - 1 : m.start()] == "."
        if name in moved.get(path, {}) and not dotted:
            return moved[path][name]
        if name not in turned:
            return name
        if in_function and "-" in name and not dotted and name not in brought:
            return name
        return turned[name]

    return re.sub(WORD, one, text)


def main(argv):
    crates = {l.split(":")[0].split()[0] for l in open("crates.txt") if ":" in l and not l.startswith("#")}
    texts = {path: open(path, encoding="utf-8").read() for path in files()}
    turned, moved, declared, words = plan(texts, crates)
    if "--check" in argv:
        for path in sorted(texts):
            for old, new in turned.items():
                if old in words[path] and new in words[path] and new not in moved.get(path, {}):
                    print(f"look: {path}: {old} -> {new}")
        print(len(turned), "names;", sum(map(len, moved.values())), "moved aside")
        for path in moved:
            print(path, moved[path])
        return 0
    changed = 0
    for path, text in texts.items():
        new = rewrite(path, text, turned, moved)
        if new != text:
            changed += 1
            with open(path, "w", encoding="utf-8") as f:
                f.write(new)
    print(f"{len(turned)} names, {changed} files")
    return 0


if __name__ == "__main__":
    raise SystemExit(main(sys.argv[1:]))
