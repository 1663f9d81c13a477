#!/usr/bin/env python3
"""Brings this repository's own names to the spelling of the toolchain's style: definitions, lemmas, fields and constructors in snake case.

usage: python3 tools/respell.py [--check] [FOLDER]

Run it once at the top of the repository, after the toolchain's own port script. It reads the names that specs/ and proofs/ declare or bind,
turns 'someName' and 'some-name' to 'some_name' unless the toolchain's library has the name, and rewrites them in specs/, proofs/, in the
clauses and ghost imports of src/, and in the code spans of the documents. Names of src/ and names that begin with a capital stay.
--check lists what would turn, and names that would fall together.
"""
import os
import re
import subprocess
import sys

WORD = re.compile(r"[^\s(){}.;,@\"«»\[\]\\λ→⟨⟩|:=\x60]+")
OWN = re.compile(r"[a-z][A-Za-z0-9_']*(?:-[A-Za-z0-9_']+)*'*")
# names that would fall together with another of their scope
APART = {"readBack": "reads_back", "lastDigits": "final_digits"}
# definitions of ours whose old spelling the library's texts happen to have too
ALSO = {"isSet", "isT"}
# files that hold the proof of a function
OF_A_FUNCTION = ("Proof.antt", "Answers.antt", "Invariants.antt")
CLAUSE = re.compile(r"ghost\s+use\b[^;]*;|(?:requires|ensures)\s*\*?\s*(?:\w+\s*)?\{|#!?\[tactic\b[^\n]*")


def snake(name):
    if name in APART:
        return APART[name]
    name = re.sub(r"(?<=[a-z0-9])(?=[A-Z])", "_", name).replace("-", "_").lower()
    return name


def turns(word):
    return bool(OWN.fullmatch(word)) and (("-" in word) or word != word.lower())


def split_comments(text):
    """Pairs (is_comment, part)."""
    at = 0
    for m in re.finditer(r'"(?:[^"\\\n]|\\.)*"|(?<![^\s(){}.;,])--[^\n]*|\{-.*?-\}', text, re.S):
        yield False, text[at : m.start()]
        yield m[0][0] != '"', m[0]
        at = m.end()
    yield False, text[at:]


def texts(root, ends):
    for folder, dirs, files in os.walk(root):
        dirs[:] = sorted(d for d in dirs if d not in ("out", ".git", "target"))
        for f in sorted(files):
            if f.endswith(ends):
                yield os.path.join(folder, f)


def read(path):
    with open(path, encoding="utf-8") as f:
        return f.read()


def library_words():
    """The words of the toolchain's library and logic, which lie beside the page that `rt doc` names."""
    kit = os.path.dirname(subprocess.run(["rt", "doc"], capture_output=True, text=True, check=True).stdout.strip())
    words = set()
    for base in ("rattle", "logic_built"):
        for path in texts(os.path.join(kit, base), (".antt", ".rt")):
            with open(path, encoding="utf-8", errors="replace") as f:
                words.update(WORD.findall(f.read()))
    return words


def own_names(root, library):
    found = set()
    for path in texts(os.path.join(root, "crates"), (".antt",)):
        if os.path.basename(path) in OF_A_FUNCTION:
            continue
        for comment, part in split_comments(read(path)):
            if not comment:
                found.update(w for w in WORD.findall(part) if turns(w) and (w not in library or w in ALSO))
    return found


def local_names(text, library, table):
    """The helpers of a function's proof file; the names that Rattle makes stay."""
    made = set(re.findall(r"(?:tie|goal)\.(?:Need-)?([^\s(){}.;,]+)", text))
    names = set()
    for m in re.finditer(r"^(?:  )*(?:pub |abbrev |unfoldable )*([^\s(){}.;,:]+) :", text, re.M):
        w = m[1]
        if turns(w) and w not in library and w not in made:
            names.add(w)
    return names


def turn_words(text, table, keep=()):
    return WORD.sub(lambda m: table[m[0]] if m[0] in table and m[0] not in keep else m[0], text)


def turn_spans(text, table):
    return re.sub(r"\x60[^\x60\n]+\x60", lambda m: turn_words(m[0], table), text)


def turn_antt(text, table, keep=()):
    camel = {k: v for k, v in table.items() if "-" not in k}
    parts = []
    for comment, part in split_comments(text):
        if comment:
            part = turn_words(turn_spans(part, table), camel)
        elif part[:1] != '"':
            part = turn_words(part, table, keep)
        parts.append(part)
    return "".join(parts)


def turn_clauses(text, table):
    """The clauses and ghost imports of a source, and the code spans of its comments."""
    out, at = [], 0
    for m in CLAUSE.finditer(text):
        if m.start() < at:
            continue
        end = m.end()
        if m[0].endswith("{"):
            deep = 1
            while deep:
                deep += {"{": 1, "}": -1}.get(text[end], 0)
                end += 1
        out.append(text[at : m.start()])
        out.append(turn_words(text[m.start() : end], table))
        at = end
    out.append(text[at:])
    camel = {k: v for k, v in table.items() if "-" not in k}
    lines = "".join(out).split("\n")
    for i, line in enumerate(lines):
        if line.lstrip().startswith("//"):
            lines[i] = turn_words(turn_spans(line, table), camel)
    return "\n".join(lines)


def functions(root):
    names = set()
    for path in texts(os.path.join(root, "crates"), (".rt",)):
        names.update(re.findall(r"\bfn ([a-z_0-9]+)", read(path)))
    return names


def main():
    args = sys.argv[1:]
    check = "--check" in args
    args = [a for a in args if a != "--check"]
    root = args[0] if args else "."
    library = library_words()
    table = {n: snake(n) for n in own_names(root, library)}
    table = {k: v for k, v in table.items() if k != v}
    if check:
        together = {}
        for path in texts(os.path.join(root, "crates"), (".antt",)):
            if os.path.basename(path) in OF_A_FUNCTION or "__edit_" in path:
                continue
            here = {}
            for comment, part in split_comments(read(path)):
                if not comment:
                    for w in WORD.findall(part):
                        here.setdefault(table.get(w, w), set()).add(w)
            for new, olds in here.items():
                if len(olds) > 1:
                    together.setdefault((new, tuple(sorted(olds))), []).append(path)
        for (new, olds), paths in sorted(together.items()):
            print("together:", new, olds, *[p.replace(root, "") for p in paths])
        for k in sorted(table):
            if table[k] in library:
                print("library:", k, table[k])
        print(len(table), "names")
        return
    sources = {f.replace("_", "-"): f for f in functions(root) if "_" in f}
    changed = 0
    for path in texts(os.path.join(root, "crates"), (".antt", ".rt")):
        text = read(path)
        if path.endswith(".rt"):
            new = turn_clauses(text, table)
        elif os.path.basename(path) in OF_A_FUNCTION or "__edit_" in path and re.search(r"/(Proof|Answers|Invariants)__edit", path):
            made = set(re.findall(r"(?:tie|goal)\.(?:Need-)?([^\s(){}.;,]+)", text))
            here = dict(table)
            for w in local_names(text, library, table):
                here[w] = snake(w)
            new = turn_antt(text, here, keep=made)
            # a step is named as its function is spelled
            new = re.sub(
                r"(?<=\.)([a-z][a-z0-9]*(?:-[a-z0-9]+)+)(?=[\s.(){},;])",
                lambda m: sources.get(m[1], m[1]),
                new,
            )
        else:
            new = turn_antt(text, table)
        if new != text:
            changed += 1
            with open(path, "w", encoding="utf-8") as f:
                f.write(new)
    for path in [os.path.join(root, "README.md"), *texts(os.path.join(root, "docs"), (".md",))]:
        text = read(path)
        new = turn_spans(text, table)
        if new != text:
            changed += 1
            with open(path, "w", encoding="utf-8") as f:
                f.write(new)
    print(f"{len(table)} names, {changed} files")


if __name__ == "__main__":
    main()
