#!/usr/bin/env python3
"""Spells the repository's own words of specs/ and proofs/ as today's library does.

Run once at the top of the repository. Functions, fields and members of contracts get snake case
(in_instance), facts and types camel case (PathRule). A lemma is named after its parts, joined by dashes, and
each part is spelled as the word that it stands for (is_none-joined). Functions of src/, strings, inputs and
outputs keep their names. With --list it writes nothing and prints the old and new names, and those that
would fall together with a word in use.
"""
import glob
import re
import sys

NAME = r"[^\s(){}\[\];,.:λ⌜⌝`\"]+"
TOKEN = re.compile(NAME)
HEAD = re.compile(r"^(?P<indent>\s*)(?P<words>(?:(?:abbrev|unfoldable|opaque|pub|record|data) )*)(?P<name>" + NAME + r")(?P<rest>.*)$")


def files():
    specs = glob.glob("crates/*/specs/**/*.antt", recursive=True)
    return sorted(specs + glob.glob("crates/*/proofs/**/*.antt", recursive=True))


def declared():
    """The words and the lemmas that specs/ and proofs/ declare; answers to goals are neither."""
    words, lemmas = set(), set()
    for path in files():
        inside = None
        for line in open(path, encoding="utf-8"):
            m = HEAD.match(line)
            if not m or not m["rest"].strip():
                continue
            name, kinds, rest = m["name"], m["words"].split(), m["rest"].strip()
            if not m["indent"]:
                inside = "type" if {"record", "data"} & set(kinds) else None
            typed = bool(re.match(r"^[:({]", rest)) and ":" in rest
            if not typed or "-" not in name.strip("-") or re.match(r"^:\s*(goal|need)\.", rest):
                continue
            if not re.search(r"[A-Za-z]", name):
                continue
            if {"record", "data", "abbrev", "unfoldable", "opaque"} & set(kinds) or (inside and m["indent"]):
                words.add(name)
            elif rest.startswith(":"):
                lemmas.add(name)
    return words, lemmas - words


# Words whose new spelling is another word's: the variants NoToken and NoWay, the process's NodeAdded and FlowAdded.
APART = {"No-token": "HasNoToken", "No-way": "NoWayOn", "Node-added": "AddedNode", "Flow-added": "AddedFlow"}


def spelled(word):
    if word in APART:
        return APART[word]
    parts = word.split("-")
    if word[0].isupper():
        return "".join(p[:1].upper() + p[1:] for p in parts)
    return "_".join(parts)


def spelled_lemma(name, words):
    parts, out, i = name.split("-"), [], 0
    while i < len(parts):
        for j in range(len(parts), i + 1, -1):
            part = "-".join(parts[i:j])
            if part in words:
                out.append(spelled(part))
                i = j
                break
        else:
            out.append(parts[i])
            i += 1
    return "-".join(out)


def renamed():
    words, lemmas = declared()
    table = {w: spelled(w) for w in words}
    table.update({n: spelled_lemma(n, words) for n in lemmas})
    return {old: new for old, new in table.items() if old != new}


def respell(text, table):
    return TOKEN.sub(lambda m: table.get(m.group(), m.group()), text)


def respell_source(text, table):
    """Of a source file only what contracts see, and the names between backticks of a comment."""
    out = []
    for line in text.split("\n"):
        code, slashes, comment = line.partition("//")
        comment = re.sub(r"`[^`]*`", lambda m: respell(m.group(), table), comment)
        quoted = re.split(r"(\"(?:\\.|[^\"\\])*\")", code)
        code = "".join(q if i % 2 else respell(q, table) for i, q in enumerate(quoted))
        out.append(code + slashes + comment)
    return "\n".join(out)


def main():
    table = renamed()
    if "--list" in sys.argv:
        used = set()
        for path in files() + glob.glob("crates/*/src/**/*.rt", recursive=True):
            used |= set(TOKEN.findall(open(path, encoding="utf-8").read()))
        for old, new in sorted(table.items()):
            print(old, new, "FALLS TOGETHER" if new in used else "")
        return
    for path in files():
        old = open(path, encoding="utf-8").read()
        new = respell(old, table)
        if new != old:
            open(path, "w", encoding="utf-8").write(new)
    for path in glob.glob("crates/*/src/**/*.rt", recursive=True) + glob.glob("crates/*/must-fail/*.edit"):
        old = open(path, encoding="utf-8").read()
        new = respell_source(old, table)
        if new != old:
            open(path, "w", encoding="utf-8").write(new)
    for path in glob.glob("docs/*.md") + ["README.md"]:
        old = open(path, encoding="utf-8").read()
        new = re.sub(r"`[^`\n]*`", lambda m: respell(m.group(), table), old)
        if new != old:
            open(path, "w", encoding="utf-8").write(new)


main()
