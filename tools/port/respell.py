#!/usr/bin/env python3
"""Spells the repository's own antt names as today's Rattle does: words in snake case, types and modules in camel case.

usage: tools/port/respell.py [FOLDER]      once, at the top, right after the kit's port.py

A name in lower camel case is turned wherever it stands in crates/, in the edits, README.md and docs/. A definition or
lemma of specs/ or proofs/ whose name has dashes gets underscores, but where a part is a type's name. A name that would
meet another gets '_lem', and each crate's root file gets '#![tactic(auto)]'. What Rattle generates, functions of src/ and text in strings keep their names.
"""

import os
import re
import sys

NAME = r"[^\s(){}.;,@\"«»]+"
# Lemmas whose name a definition in camel case would meet.
LEMMAS = {
    it: it + "_lem"
    for it in "same_first first_part pairs_next ends_last term_is in_order cut_inside right_of last_line no_key other_key".split()
}
DECLARED = re.compile(r"(?m)^ *((?:\w+ )*?)(" + NAME + r")((?: \{[^{}\n]*\})*) :")


def files(top, ends):
    for folder, dirs, names in os.walk(top):
        dirs[:] = sorted(d for d in dirs if d not in ("out", ".git", "target"))
        for name in sorted(names):
            if name.endswith(ends):
                yield os.path.join(folder, name)


def snake(name):
    return re.sub(r"(?<=[a-z0-9'])([A-Z])", lambda m: "_" + m[1].lower(), name)


def is_camel(name):
    return bool(re.match(r"[a-z]", name) and re.search(r"[a-z0-9'][A-Z]", name))


def code_of(text):
    return re.sub(r"--[^\n]*", "", text)


def main():
    root = sys.argv[1] if len(sys.argv) > 1 else "."
    crates = os.path.join(root, "crates")
    antt = {p: open(p, encoding="utf-8").read() for p in files(crates, ".antt")}
    camel, declared, tokens = {}, set(), set()
    for path, text in antt.items():
        code = code_of(text)
        tokens.update(re.findall(NAME, code))
        for name in re.findall(NAME, code):
            if is_camel(name) and "-" not in name:
                camel[name] = snake(name)
        if not path.endswith("Proof.antt"):
            declared.update(m[2] for m in DECLARED.finditer(code))
    words = dict(camel)
    if len(set(words.values())) != len(words):
        raise SystemExit("respell: two names fall together")
    # Names with dashes that these files declare.
    dashed = {}
    for name in sorted(declared):
        parts = name.split("-")
        if len(parts) > 1 and all(re.match(r"[a-z0-9][\w']*$", it) for it in parts):
            dashed[name] = "_".join(words.get(it, snake(it)) for it in parts)
    taken = (tokens - set(dashed) - set(camel)) | set(words.values())
    for name, new in sorted(dashed.items()):
        if new in taken or list(dashed.values()).count(new) > 1:
            dashed[name] = new + "_lem"
            if dashed[name] in taken:
                raise SystemExit(f"respell: {name} has no free name")
        taken.add(dashed[name])

    def turn_word(name):
        if name in LEMMAS:
            return LEMMAS[name]
        if name in words:
            return words[name]
        if "-" in name:
            return "-".join(words.get(it, it) for it in name.split("-"))
        return name

    own = set(os.listdir(crates))

    def is_own(path):
        steps = path.strip(".").split(".")
        return steps[0] == "package" or steps[0] == "Rattle" and len(steps) > 1 and steps[1] in own

    def turn_antt(text):
        code = code_of(text)
        aliases = {m[2] for m in re.finditer(r"\buse ([^\s{]+) as (" + NAME + r")", code) if is_own(m[1])}
        # What a library of the kit lends keeps its name.
        theirs = set()
        for m in re.finditer(r"\buse ([^\s{]+)\{([^}]*)\}", code):
            if not is_own(m[1]):
                theirs.update(re.findall(NAME, m[2]))
        out = []
        for line in text.split("\n"):
            code, sep, remark = line.partition("--")
            remark = re.sub(r"[a-z]\w*[A-Z]\w*", lambda m: words.get(m[0], m[0]), remark)
            made, at = [], 0
            for m in re.finditer(NAME, code):
                made.append(code[at : m.start()])
                before = code[: m.start()]
                name = m[0]
                head = re.search(r"(" + NAME + r")\.$", before)
                # A name behind a dot is a field that is generated, unless it stands in a path of ours.
                path = bool(re.search(r"\b(use|pub use) [^\s{]*$", before)) or bool(head and head[1] in aliases)
                behind = before.endswith(".")
                if name in theirs and not behind:
                    made.append(name)
                elif name in dashed and (not behind or path):
                    made.append(dashed[name])
                elif name in LEMMAS and behind and not path:
                    made.append(name)
                elif name in LEMMAS and re.search(r"\buse Rattle\.[^{]*$", before):
                    made.append(name)
                else:
                    made.append(turn_word(name))
                at = m.end()
            made.append(code[at:])
            out.append("".join(made) + sep + remark)
        return "\n".join(out)

    def turn_words(text, more=()):
        """Turns a text that is no antt; 'more' has names that port.py turned already."""

        def turned(m):
            new = snake(m[0])
            return words.get(m[0], new if new in more else m[0])

        return re.sub(r"(?<![\w'])[a-z][\w']*[A-Z][\w']*", turned, text)

    changed = 0
    for path in files(crates, (".antt", ".rt", ".edit")):
        text = open(path, encoding="utf-8").read()
        new = turn_antt(text) if path.endswith(".antt") else turn_words(text, tokens if path.endswith(".edit") else ())
        if path.endswith(".edit"):
            new = re.sub(r"(?<=[\w)]) \.(?=[a-z])", ".", new)
        if path.endswith(".rt"):
            if re.search(r"/src/(lib|main)\.rt$", path) and "#![tactic(" not in new:
                head = re.match(r"((?://[^\n]*\n)*)", new)[1]
                new = head + "#![tactic(auto)]\n\n" + new[len(head) :].lstrip("\n")
        if new != text:
            with open(path, "w", encoding="utf-8") as f:
                f.write(new)
            changed += 1
    for path in [os.path.join(root, "README.md")] + list(files(os.path.join(root, "docs"), ".md")):
        text = open(path, encoding="utf-8").read()
        new = turn_words(text, tokens)
        if new != text:
            with open(path, "w", encoding="utf-8") as f:
                f.write(new)
            changed += 1
    print(f"respell: {len(words)} names in camel case, {len(dashed)} with dashes; {changed} files changed")


if __name__ == "__main__":
    main()
