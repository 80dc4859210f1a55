#!/usr/bin/env python3
"""Spells this repository's own definitions, lemmas, constructors and fields as its Rattle does.

usage: respell.py [--say] [FOLDER]      (once, behind the kit's port.py; --say only lists old and new)

Words joined by a dash get an underscore, and a name that begins with a large letter is a type or a fact and gets camel case:
first-from -> first_from, Level-loan -> LevelLoan. A dash beside a sign stays, as in all-++. Names that the library declares,
goals and the labels that Rattle makes of the code (then-x, c.loop-i, w.n-is) stay, and so do functions of src/, strings and numbers.
"""

import collections
import os
import re
import sys

TOKEN = re.compile(r"[^\s(){}.;,@\"«»]+")
SIGNATURE = re.compile(
    r"^(\s*(?:\|\s*)?(?:in |let )?)((?:pub |abbrev |unfoldable |mutual )*)(?:data |record |ruleset )?(?:pub )?"
    r"([^\s(){}.;,@\"«»:]+)((?:\s+[\({].*?)?)\s*:(?= |$)"
)
# what Rattle makes of the code: goals and steps
LABELS = re.compile(r"(then|else|loop|returns|invariant|decreases|overflow_\w+|bounds|slice_bounds|nonzero_\w+|in_ok|in_err|in_default|match|index|deref)-")
RESERVED = set(
    "data record deriving module where use mod pub package open as unfoldable abbrev axiom unfold unfolding ruleset mutual infix infixl infixr elim let in do Type coe fcoe tcoe hcom com".split()
)


def is_goal_file(path):
    return re.search(r"/proofs/(.*/)?(Answers|Invariants)\.antt$", path) is not None


def files_of(root):
    for folder, dirs, files in os.walk(os.path.join(root, "crates")):
        dirs[:] = sorted(d for d in dirs if d not in ("out", "data"))
        for f in sorted(files):
            if f.endswith((".antt", ".rt", ".edit")):
                yield os.path.join(folder, f)
    folder = os.path.join(root, "wip", "must-fail")
    if os.path.isdir(folder):
        for f in sorted(os.listdir(folder)):
            yield os.path.join(folder, f)


def code_of(line):
    return re.sub(r"(^|\s)--(\s.*)?$", "", line)


def declared(texts):
    own = collections.defaultdict(set)
    for path, text in texts.items():
        if not path.endswith(".antt"):
            continue
        for line in text.split("\n"):
            m = SIGNATURE.match(code_of(line))
            if not m or re.search(r":\s*goal\.", line):
                continue
            name = m.group(3)
            if is_goal_file(path) and LABELS.match(name) and name in {l.split(" ")[0] for l in text.split("\n")} and re.search(rf"\bgoal\.{re.escape(name)}(?![\w-])", text):
                continue
            own[name].add(path)
    return own


def respelled(name):
    if name[:1].isupper():
        parts = re.split(r"(?<=\w)-(?=\w)", name)
        return parts[0] + "".join(p[:1].upper() + p[1:] for p in parts[1:])
    return re.sub(r"(?<=\w)-(?=\w)", "_", name)


def of_libraries(texts):
    """Names that a text takes from a library, each with the texts that do."""
    found = collections.defaultdict(set)
    for path, text in texts.items():
        for module, names in re.findall(r"\buse (Rattle\.\w+[\w.]*|borrow[\w.]*|Prim[\w.]*|lib[\w.]*|mathlib[\w.]*|native[\w.]*)\.\{([^}]*)\}", text):
            own = re.match(r"Rattle\.(\w+)", module)
            if own and own.group(1) not in ("std", "core", "std_alloc", "std_collections", "std_heap", "std_io"):
                continue
            for name in TOKEN.findall(names):
                found[name].add(path)
    return found


def turn(path, text, table, library):
    goal_file = is_goal_file(path)
    rust = path.endswith(".rt")
    edit = not path.endswith((".rt", ".antt"))
    out = []
    for line in text.split("\n"):
        if path.endswith(".antt"):
            code = code_of(line)
        elif rust and re.match(r"\s*//", line):
            code = ""
        else:
            code = line
        rest = line[len(code):]
        if goal_file and re.match(r"\s*use Rattle\.\w+\.proofs\.[\w.]*\.?(Goals|Given)\b", code):
            out.append(line)
            continue

        def new_of(m):
            old = m.group(0)
            if old not in table or path in library.get(old, ()):
                return old
            before = code[: m.start()]
            if goal_file and re.search(r"(?<![\w.-])(c|w\d*|l|g|goal)\.$", before) and LABELS.match(old):
                return old
            return table[old]

        code = TOKEN.sub(new_of, code)
        if rust or edit:
            code = re.sub(r"«([A-Za-z][A-Za-z0-9_]*)»", lambda m: m.group(0) if m.group(1) in RESERVED else m.group(1), code)
        out.append(code + rest)
    return "\n".join(out)


def main(argv):
    say = "--say" in argv
    argv = [a for a in argv if a != "--say"]
    root = argv[0] if argv else "."
    texts = {}
    for path in files_of(root):
        with open(path, encoding="utf-8") as f:
            texts[path] = f.read()
    library = of_libraries(texts)
    own = declared(texts)
    table = {old: respelled(old) for old in own if respelled(old) != old}
    used = collections.Counter(t for text in texts.values() for t in TOKEN.findall(text))
    by_new = collections.defaultdict(list)
    for old, new in table.items():
        by_new[new].append(old)
    for new, olds in sorted(by_new.items()):
        if len(olds) > 1:
            print(f"meet: {' '.join(sorted(olds))} -> {new}")
        if new in own:
            print(f"declared already: {olds[0]} -> {new}")
        elif new in library:
            print(f"library's: {olds[0]} -> {new}")
    for path, text in texts.items():
        if path.endswith(".rt"):
            clauses = set()
            for names in re.findall(r"ghost use [\w.]+\.\{([^}]*)\}", text):
                clauses |= {table[n] for n in TOKEN.findall(names) if n in table}
            body = re.sub(r"ghost use [^;]*;", "", text)
            for new in sorted(clauses):
                if re.search(rf"(?<![\w.-]){new}\s*:(?!:)", body) or re.search(rf"\blet (mut )?{new}\b", body) or re.search(rf"\.{new}\b(?!\()", body):
                    print(f"look: {path}: {new} is a parameter, a variable or a field there")
    if say:
        for old in sorted(table):
            print(f"{old} {table[old]}")
        return 0
    for path, text in texts.items():
        turned = turn(path, text, table, library)
        if turned != text:
            with open(path, "w", encoding="utf-8") as f:
                f.write(turned)
    print(f"{len(table)} names")
    return 0


if __name__ == "__main__":
    raise SystemExit(main(sys.argv[1:]))
