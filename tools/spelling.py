#!/usr/bin/env python3
"""Brings the repository's own definitions and lemmas to one spelling: types and modules in upper camel case, all else in snake case.

usage: tools/spelling.py          rewrites specs, proofs, clauses and must-fail edits in place, once, right after the port of the older spelling
       tools/spelling.py --list   prints each name that turns, and what it turns into, and writes nothing

It goes by the files below crates/: a name turns where a spec, a lemma file or a record of one declares it. Names of the Rattle code, strings, file names and what
the check itself makes up (the goals of a function) stay.
"""
import collections
import glob
import os
import re
import sys

WORD = re.compile(r"[^\s(){}\[\];,.\"`]+")
SIGNATURE = re.compile(r"^(\s*)((?:abbrev |unfoldable |pub )*)([^\s:(){}=,;.|]+)((?:\s+\{[^}]*\})*)\s+:(?:\s|$)")
TYPE = re.compile(r"^\s*(?:abbrev |unfoldable |pub )*(record|data)\s+([^\s({:]+)")
# names that would fall together with another one of a file that has them, or read badly as they turn by themselves
CHOSEN = {
    "allHold": "all_letters_hold",
    "firstAbove": "first_index_above",
    "noKey": "key_none",
    "size-at": "size_at_place",
    "wholeRow": "whole_row_of",
    "bad-result": "bad_result_lem",
    "estimate-place": "estimate_place_lem",
    "exact-step": "exact_step_on",
    "flow-at": "flow_at_face",
    "judged-line": "judged_line_lem",
    "letter-W": "letter_w_exactly",
    "letter-L": "letter_l_exactly",
    "letter-D": "letter_d_exactly",
    "open-caps": "open_caps_move",
    "own-rows": "own_rows_give",
    "own-word": "own_word_is",
    "road-of": "road_is",
    "row-value": "row_value_is",
    "speed-density": "speed_density_is",
    "three-letters": "three_letters_are",
    "three-modes": "three_modes_are",
    "too-fast": "too_fast_lem",
    "L-L": "no_l_after_l",
    "W-D": "no_d_after_w",
}


def snake(name):
    if name in CHOSEN:
        return CHOSEN[name]
    name = name.replace("getD", "get_or")
    name = re.sub(r"(?<=[a-z0-9])([A-Z])", lambda m: "_" + m.group(1).lower(), name)
    return re.sub(r"[A-Z]", lambda m: m.group(0).lower(), name.replace("-", "_"))


def camel(name):
    if name in CHOSEN:
        return CHOSEN[name]
    return "".join(p[:1].upper() + p[1:] for p in name.split("-"))


def texts(root):
    return sorted(glob.glob(root + "/crates/*/specs/**/*.antt", recursive=True) + glob.glob(root + "/crates/*/proofs/**/*.antt", recursive=True))


def declared(root):
    """Each name that a spec or a lemma file declares, and whether a record has it as a field."""
    names, fields = set(), set()
    for path in texts(root):
        if os.path.basename(path) in ("Proof.antt", "Answers.antt", "Invariants.antt") and "/proofs/" in path and path.count("/", path.index("/proofs/")) > 2:
            continue
        record = None
        with open(path, encoding="utf-8") as f:
            for line in f:
                bare = line.strip()
                if not bare or bare.startswith(("--", "use ", "let ", "in ")):
                    continue
                indent = len(line) - len(line.lstrip())
                if record is not None and indent <= record[0]:
                    record = None
                t = TYPE.match(line)
                if t:
                    names.add(t.group(2))
                    record = (indent, t.group(1))
                    continue
                s = SIGNATURE.match(line)
                if s:
                    names.add(s.group(3))
                    if record is not None and record[1] == "record":
                        fields.add(s.group(3))
    return names, fields


def table(root):
    names, fields = declared(root)
    turned = {}
    for n in names:
        if not n[0].isascii() or not n[0].isalpha():
            continue
        new = camel(n) if n[0].isupper() else snake(n)
        if new != n:
            turned[n] = new
    return turned, fields


def foreign(text, own):
    """The names that a file imports from a library that is not the repository's."""
    found = set()
    for m in re.finditer(r"\buse ([^\s;{]+)\.\{([^}]*)\}", text):
        path = m.group(1)
        if not (path.startswith("Rattle.") and path.split(".")[1] in own):
            for item in m.group(2).split(","):
                found.add(item.strip().split(" as ")[-1])
    return found


def turn(text, turned, fields, kept, made):
    out, last = [], 0
    for m in WORD.finditer(text):
        w = m.group(0)
        if w not in turned or w in kept:
            continue
        before = text[m.start() - 1] if m.start() else " "
        if before == "." and made:
            head = re.search(r"([^\s(){}\[\];,.]+)\.$", text[max(0, m.start() - 60) : m.start()])
            if w not in fields and not (head and head.group(1)[:1].isupper()):
                continue
        out.append(text[last : m.start()])
        out.append(turned[w])
        last = m.end()
    out.append(text[last:])
    return "".join(out)


def parts(text, comment):
    """The text cut into code, and comments and strings: (piece, kind)."""
    pattern = re.compile(r'"(?:[^"\\\n]|\\.)*"|(?<!\S)--[^\n]*' if comment == "--" else r'"(?:[^"\\\n]|\\.)*"|//[^\n]*')
    last = 0
    for m in pattern.finditer(text):
        yield text[last : m.start()], "code"
        yield m.group(0), "string" if m.group(0).startswith('"') else "comment"
        last = m.end()
    yield text[last:], "code"


def rewritten(path, text, turned, fields, own):
    if path.endswith(".edit"):
        kept = set()
        return "".join(line if line.startswith(("#", "file:")) else turn(line, turned, fields, kept, False) for line in text.splitlines(keepends=True))
    kept = foreign(text, own)
    made = bool(re.search(r"/proofs/.+/(Proof|Answers|Invariants)\.antt$", path))
    out = []
    for piece, kind in parts(text, "//" if path.endswith(".rt") else "--"):
        if kind == "code":
            out.append(turn(piece, turned, fields, kept, made))
        elif kind == "comment":
            out.append(re.sub(r"`[^`]*`", lambda m: turn(m.group(0), turned, fields, kept, made), piece))
        else:
            out.append(piece)
    return "".join(out)


def main(argv):
    root = "."
    turned, fields = table(root)
    own = {os.path.basename(p) for p in glob.glob(root + "/crates/*")}
    files = texts(root) + sorted(glob.glob(root + "/crates/*/src/**/*.rt", recursive=True)) + sorted(glob.glob(root + "/crates/*/must-fail/*.edit"))
    if argv == ["--list"]:
        for n in sorted(turned):
            print(n, turned[n])
        together = collections.defaultdict(set)
        for n, t in turned.items():
            together[t].add(n)
        for t, ns in sorted(together.items()):
            if len(ns) > 1:
                print("together:", t, *sorted(ns))
        for path in files:
            with open(path, encoding="utf-8") as f:
                text = f.read()
            words = {m.group(0) for m in WORD.finditer("".join(p for p, k in parts(text, "//" if path.endswith(".rt") else "--") if k == "code"))}
            kept = foreign(text, own)
            for n in sorted(words & set(turned)):
                if n in kept:
                    print("imported:", path, n)
                elif turned[n] in words:
                    print("meets:", path, n, turned[n])
        return 0
    for path in files:
        with open(path, encoding="utf-8") as f:
            text = f.read()
        new = rewritten(path, text, turned, fields, own)
        if new != text:
            with open(path, "w", encoding="utf-8") as f:
                f.write(new)
    return 0


if __name__ == "__main__":
    raise SystemExit(main(sys.argv[1:]))
