#!/usr/bin/env python3
"""Spells the repository's own definitions and lemmas as today's Rattle spells its words: in snake case.

usage: python3 tools/spell.py        at the top of the repository, once, after the kit's port.py

A definition, a field, a constructor or a lemma that specs/ or a file of proofs/ declares loses its capitals and dashes:
`lawfulChip` is `lawful_chip`, `chip-limits` is `chip_limits`. Types and modules keep theirs. What stands in src/ as a function, a
field or an item, each exported C name, each string and each input and output stays. A name of a library, and a goal that Rattle
names, stays in the files that import it or answer it. It says which names meet another name in some file, and changes nothing then.
"""

import collections
import os
import re
import sys

DELIMITERS = r"\s(){}.;,@\"«»\[\]|"
TOKEN = re.compile(rf"(?<![^{DELIMITERS}])[^{DELIMITERS}]+")
DECLARED = re.compile(r"(?m)^ *((?:(?:abbrev|unfoldable|pub|opaque) )*)(record |data |mod |ruleset )?([^\s(){}\[\],;:.|«»]+)(?: [({][^\n]*?)? :(?=\s|$)")
FROM_LIBRARY = re.compile(r"\buse ((?!Rattle\.)|Rattle\.(?:std|core|io|os|libc|check)\b)[^\s;{]*\.\{([^}]*)\}")
PROVES_FUNCTION = re.compile(r"/proofs/.+/(Proof|Answers|Invariants)\.antt$")
RT_STRING = re.compile(r'b?"(?:[^"\\\n]|\\.)*"')

# Lemmas that plain spelling would bring together with the definition that they are about.
CHOSEN = {
    name: name.replace("-", "_") + "_lem"
    for name in "node_at goes_down on_line zero-at pair-beside leaf-bytes lawful-chip judged-rows judged-cuts has-none chip-on changed-node".split()
}


def plain(name):
    if name in CHOSEN:
        return CHOSEN[name]
    words = re.sub(r"(?<=[a-z0-9])[A-Z](?=[a-z]|$)", lambda m: "_" + m[0].lower(), name) if re.match(r"[a-z]", name) else name
    return words.replace("-", "_")


def antt_files():
    for folder, inner, files in os.walk("crates"):
        inner[:] = sorted(d for d in inner if d != "out")
        for f in sorted(files):
            if f.endswith(".antt"):
                yield os.path.join(folder, f)


def rt_files():
    for folder, inner, files in os.walk("crates"):
        inner[:] = sorted(d for d in inner if d != "out")
        for f in sorted(files):
            if f.endswith(".rt"):
                yield os.path.join(folder, f)


def edit_files():
    for folder, inner, files in os.walk("crates"):
        if os.path.basename(folder) == "must-fail":
            yield from (os.path.join(folder, f) for f in sorted(files) if f.endswith(".edit"))


def page_files():
    for folder in ["README.md", "docs", "reference", "host", "bench"]:
        if folder.endswith(".md"):
            yield folder
            continue
        for at, inner, files in os.walk(folder):
            for f in sorted(files):
                if f.endswith(".md"):
                    yield os.path.join(at, f)


def read(path):
    with open(path, encoding="utf-8") as f:
        return f.read()


def declared_in(text):
    return {m[3] for m in DECLARED.finditer(text) if m[2] is None}


def of_library(text):
    names = set()
    for m in FROM_LIBRARY.finditer(text):
        names |= {re.split(r"\s+as\s+", n.strip())[0] for n in m[2].split(",")}
    return names


def code_tokens(text):
    """The words outside comments, each with its place."""
    for line in re.finditer(r"[^\n]*\n?", text):
        body = re.split(r"(?:^|\s)--(?:\s|$)", line[0], maxsplit=1)[0]
        yield from ((m.start() + line.start(), m[0]) for m in TOKEN.finditer(body))


def main():
    texts = {p: read(p) for p in antt_files()}
    sources = {p: read(p) for p in rt_files()}
    renamed = {}
    for path, text in texts.items():
        if PROVES_FUNCTION.search(path):
            continue
        for name in declared_in(text):
            if plain(name) != name and re.match(r"[A-Za-z]", name):
                renamed[name] = plain(name)
    trouble, written = [], {}
    for path, text in {**texts, **sources}.items():
        here = renamed
        if path.endswith(".antt"):
            kept = of_library(text)
            if PROVES_FUNCTION.search(path):
                imported = {n.strip() for m in re.finditer(r"\buse Rattle\.[^\s;{]*\.\{([^}]*)\}", text) for n in m[1].split(",")}
                kept |= {n for n in declared_in(text) if n not in imported}
            here = {old: new for old, new in renamed.items() if old not in kept}
            words = {w for _, w in code_tokens(text)}
        else:
            code = re.sub(r"//[^\n]*", "", RT_STRING.sub('""', text))
            words = set(re.findall(r"[A-Za-z_][\w'-]*", code))
            # a value or a field of that name would hide the definition in a clause; a function doesn't
            values = set(re.findall(r"\b([a-z_]\w*)\s*:(?!:)|\blet (?:mut )?([a-z_]\w*)|\.([a-z_]\w*)(?!\w|\()", code))
            values = {v for group in values for v in group if v}
        # Two names that would become one, and a new name that the file has already.
        met = collections.defaultdict(set)
        for old in words & set(here):
            met[here[old]].add(old)
        for new, olds in met.items():
            beside = {new} & (words if path.endswith(".antt") else values) - set(here)
            if len(olds | beside) > 1:
                trouble.append(f"{path}: {new} would be {' and '.join(sorted(olds | beside))}")
        mark = "--" if path.endswith(".antt") else "//"
        written[path] = "".join(line_turned(line, here, mark) for line in text.splitlines(keepends=True))
    for path in edit_files():
        texts[path] = read(path)
        written[path] = "".join(line_turned(line, renamed, "--") if re.match("(old|new):", line) else line for line in texts[path].splitlines(keepends=True))
    print(f"{len(renamed)} names")
    for line in trouble:
        print("meets: " + line)
    if "--dry" in sys.argv:
        return
    for path, text in written.items():
        if text != {**texts, **sources}[path]:
            with open(path, "w", encoding="utf-8") as f:
                f.write(text)
    for path in page_files():
        text = read(path)
        new = re.sub(r"`([^`\n]+)`", lambda m: "`" + TOKEN.sub(lambda w: renamed.get(w[0], w[0]), m[1]) + "`", text)
        if new != text:
            with open(path, "w", encoding="utf-8") as f:
                f.write(new)


def respelled(code, here):
    return TOKEN.sub(lambda m: here.get(m[0], m[0]), code)


def line_turned(line, here, mark):
    """Outside strings and comments; in a comment what stands between backticks, and a word with a capital within."""
    comment = re.search(rf"(?:^|\s){mark}(?:\s|$)", line)
    code, said = (line[: comment.start()], line[comment.start() :]) if comment else (line, "")
    spans, at = [], 0
    for s in RT_STRING.finditer(code):
        spans += [respelled(code[at : s.start()], here), s[0]]
        at = s.end()
    spans.append(respelled(code[at:], here))
    said = re.sub(r"`([^`\n]+)`", lambda m: "`" + respelled(m[1], here) + "`", said)
    said = re.sub(r"(?<![\w-])[a-z]+[A-Z][A-Za-z]*(?![\w-])", lambda m: here.get(m[0], m[0]), said)
    return "".join(spans) + said


if __name__ == "__main__":
    main()
