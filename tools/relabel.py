#!/usr/bin/env python3
"""Gives the labels of goals and steps in proofs/F/{Answers,Invariants}.antt today's spelling: a name of the source keeps its underscores.

usage: relabel.py [FOLDER]      if-in-word -> if-in_word where src/ has in_word; overflow-add-x -> overflow_add-x
"""

import os
import re
import sys

TOKEN = re.compile(r"[^\s(){}.;,@\"«»]+")
HEADS = ["overflow-add", "overflow-sub", "overflow-mul", "overflow-shl", "overflow-shr", "overflow-cast", "overflow-step", "offset-bounds", "slice-bounds", "nonzero-div", "nonzero-rem", "invariant-of", "in-ok", "in-err", "in-default", "type-inv"]
LIBRARY = "is_none is_some is_ok is_err is_empty wrapping_add wrapping_mul wrapping_sub checked_add checked_mul checked_sub saturating_add saturating_sub saturating_mul copy_from_slice split_at get_mut as_bytes write_str write_char write_fmt unwrap_or from_utf8 to_le_bytes next_back as_str push_str as_slice as_mut pop_front push_back read_to_end write_all read_line".split()


def names_of(folder):
    found = set(LIBRARY)
    for at, dirs, files in os.walk(os.path.join(folder, "src")):
        for f in files:
            if f.endswith(".rt"):
                with open(os.path.join(at, f), encoding="utf-8") as it:
                    text = it.read()
                text = re.sub(r"ghost use [^;]*;", "", text)
                text = re.sub(r"(?m)^\s*//.*$", "", text)
                text = re.sub(r"(?m)^\s*(requires|ensures)\b.*$", "", text)
                found.update(re.findall(r"\b[a-z]\w*_\w+\b", text))
    return found


def main(argv):
    root = argv[0] if argv else "."
    crates = os.path.join(root, "crates")
    changed = 0
    for crate in sorted(os.listdir(crates)):
        names = names_of(os.path.join(crates, crate))
        pairs = sorted(((n.replace("_", "-"), n) for n in names), key=lambda p: -len(p[0]))
        pairs = [(h, h.replace("-", "_", 1)) for h in HEADS] + pairs

        def fixed(name):
            for old, new in pairs:
                if old in name:
                    name = re.sub(rf"(?<![a-z0-9_]){re.escape(old)}(?![a-z0-9_])", new, name)
            return name.replace("·", "-")

        for at, dirs, files in os.walk(os.path.join(crates, crate, "proofs")):
            for f in files:
                if f not in ("Answers.antt", "Invariants.antt"):
                    continue
                path = os.path.join(at, f)
                with open(path, encoding="utf-8") as it:
                    text = it.read()
                own = set(re.findall(r"(?m)^(?:pub |abbrev )*([^\s:(){}]+) : (?!goal\.)", text))
                labels = set(re.findall(r"\bgoal\.([^\s(){}.;,]+)", text))
                out = []
                for line in text.split("\n"):
                    if re.match(r"use Rattle\.\w+\.(proofs\.[\w.]*Goals|proofs\.[\w.]*Given)\.\{", line):
                        head, rest = line.split("{", 1)
                        line = head + "{" + TOKEN.sub(lambda m: fixed(m.group(0)), rest)
                        labels |= set(TOKEN.findall(rest))
                    elif not line.startswith("use "):

                        def new_of(m):
                            name = m.group(0)
                            before = line[: m.start()]
                            if "-" not in name and "·" not in name:
                                return name
                            if name in own and not before.endswith("."):
                                return name
                            if before.endswith(".") or name in labels:
                                return fixed(name)
                            return name

                        line = TOKEN.sub(new_of, line)
                    out.append(line)
                new = "\n".join(out)
                if new != text:
                    changed += 1
                    with open(path, "w", encoding="utf-8") as it:
                        it.write(new)
    print(f"{changed} files")


main(sys.argv[1:])
