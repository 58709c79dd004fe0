#!/usr/bin/env python3
"""Brings the edits that a proof must refuse to the spelling of today's Rattle.

usage: python3 tools/turn_edits.py        at the top of the repository, once, after tools/respell.py

The toolchain's port.py and tools/respell.py turn sources, definitions and proofs, and leave crates/*/must-fail/*.edit as they were.
Here each text of such an edit is turned as the two turned the file that it names: own names by tools/respelled.txt, a projection
written tight (`(c .anchor)` to `c.anchor`, `f a .g` to `(f a).g`), the library's operators and names, and modules of lemmas in
upper case. Where an edit only wants further names of the library, those go to the front of the file's import of the Prelude.
Comment lines stay, but for names of code between backticks. An edit that does not apply afterwards is printed.

It goes by text. An edit of a test in the code also changes the names that Rattle makes of the test, which a proof cites: such an
edit is then refused for a name, and its text is to be mended by hand so that the test keeps its name.
"""

import os
import re
import sys

sys.dont_write_bytecode = True
sys.path.insert(0, os.path.dirname(os.path.realpath(__file__)))
import respell  # noqa: E402

PRELUDE = "use Rattle.std.specs.Prelude.{"
# Names that the toolchain's port.py turned itself, so that tools/respelled.txt has not got them.
BY_PORT = {
    "allOf": "all_of",
    "bitsOf": "bits_of",
    "getD": "get_or",
    "labelAt": "label_at",
    "leftOf": "left_of",
    "linkOf": "link_of",
    "listOf": "list_of",
    "noMore": "no_more",
    "orElse": "or_else",
    "putBack": "put_back",
    "rightOf": "right_of",
    "row-fine": "row_fine",
    "as-before": "as_before",
    "upd-other": "upd_other",
    "tablesOf": "tables_of",
    "withWords": "with_words",
    "wordsOf": "words_of",
}
# Texts of clauses and of a proof that walks the code, in which more than the spelling changed.
BY_HAND = {
    "ensures { λ m. ⌜ Steps 4 c r m ⌝ }": "ensures { Steps 4 c r result }",
    "ensures { λ m. ⌜ Steps 4 c r m ⌝ } ensures { λ _. ⌜ now (marks .exit) ≡ now (marks .entry) ⌝ }": "ensures steps { Steps 4 c r result } ensures marks_unchanged { marks.new ≡ marks.old }",
    "(failed4 (a .c) (a .r) (other .if1 .left)), λ _. a .marks .now)": "(failed4 a.c a.r other.if1.false)), λ _. a.marks.now)",
    "(failed4 (a .c) (a .r) (other .if1 .left))": "(failed4 a.c a.r other.if1.false)",
}
OPERATOR = re.compile(r"\b_([^\w\s(){}\[\],;.:\"]+)_\b")
PIECE = re.compile(r"(\s*)([(){}\[\],;]|[^\s(){}\[\],;]+)")
# Words and signs of antt at which an application begins anew.
ENDS = set("= ≡ + - * / % ^ && || ++ ∷ → × ⊎ ≤ < λ let in record rw use".split()) | set("({[,;")


def names(text, renamed):
    """The text with each name as it is spelled now, those that Rattle makes in a proof too."""
    text = respell.TOKEN.sub(lambda m: renamed.get(m.group(), m.group()), text)
    text = text.replace(".if1 .taken", ".if1 .true").replace("search needs", "search rules").replace("clear-mark", "clear_mark")
    return OPERATOR.sub(r"◌\1◌", text).replace("′", "'").replace("Rattle·", "Rattle.")


def group(pieces, at):
    """The index of the bracket that closes the one at `at`, or None where the text is only a part of a line."""
    depth = 0
    for i in range(at, len(pieces)):
        depth += (pieces[i][1] in ("(", "[", "{")) - (pieces[i][1] in (")", "]", "}"))
        if depth == 0:
            return i
    return None


def tighten(pieces):
    """Pairs of white space and text, in which each projection is written tight."""
    out, start, i = [], 0, 0
    while i < len(pieces):
        space, text = pieces[i]
        if text in ("(", "[", "{"):
            end = group(pieces, i)
            if end is not None:
                inside = tighten(pieces[i + 1 : end])
                whole = "".join(s + t for s, t in inside)
                was = "".join(s + t for s, t in pieces[i + 1 : end])
                alone = text == "(" and len(inside) == 1 and whole != was
                out.append((space, whole if alone else text + whole + "".join(pieces[end])))
                i = end + 1
                continue
        if re.match(r"\.\w", text) and space and start < len(out):
            spine = out[start:]
            told = "".join(s + t for s, t in spine).strip()
            out[start:] = [(spine[0][0], (told if len(spine) == 1 else f"({told})") + text)]
        else:
            out.append((space, text))
            if text in ENDS or text.endswith((".", ":")) or re.fullmatch(r"[)}\]]", text):
                start = len(out)
        i += 1
    return out


def turned(text, renamed):
    text = names(text, renamed)
    pieces = PIECE.findall(text)
    rest = text[sum(len(s) + len(t) for s, t in pieces) :]
    return "".join(s + t for s, t in tighten(pieces)) + rest


def leaves(use):
    """The names that an import brings in, with their paths."""
    found, stack, path = [], [], ""
    for part in re.findall(r"[{},]|[^{},]+", use.removeprefix("use ")):
        part = part.strip()
        if part == "{":
            stack.append(path)
        elif part == "}":
            path = stack.pop()
        elif part == ",":
            path = stack[-1] if stack else ""
        elif part:
            path = (stack[-1] if stack else "") + part
            if not part.endswith("."):
                found.append(path)
    return found


def last(path):
    return path.split(".")[-1]


def turned_pair(old, new, renamed, file):
    """The pair as it is spelled now. What an edit imports of the library besides goes to the file's import of the Prelude, if it has one."""
    old, new = (BY_HAND[it] if it in BY_HAND else turned(it, renamed) for it in (old, new))
    if re.match(r"use (mathlib|Prim|lib)\b", old) and PRELUDE in file:
        if not (old.startswith("use lib") and file.count(old) == 1):
            more = [it for it in map(last, leaves(new)) if it not in map(last, leaves(old))]
            return PRELUDE, PRELUDE + "".join(it + ", " for it in more)
    return old, new


def turned_path(crate, path):
    parts = path.split("/")
    if parts[0] == "proofs" and len(parts) > 2 and parts[1] in respell.MODULES.get(crate, ()):
        parts[1] = respell.upper(parts[1])
    return "/".join(parts)


def main():
    with open("tools/respelled.txt", encoding="utf-8") as f:
        renamed = dict(line.rstrip("\n").split(" ", 1) for line in f) | BY_PORT
    for edit in respell.files("crates", (".edit",)):
        crate = edit.split("/")[1]
        out, path, file, old = [], "", "", ""
        for line in respell.read(edit).split("\n"):
            if line.startswith("file: "):
                path = turned_path(crate, line.removeprefix("file: "))
                file = respell.read(f"crates/{crate}/{path}")
                out.append("file: " + path)
            elif line.startswith("old: "):
                old = line.removeprefix("old: ")
            elif line.startswith("new: "):
                a, b = turned_pair(old, line.removeprefix("new: "), renamed, file)
                if file.count(a) != 1:
                    print(f"{edit}: in {path} this stands {file.count(a)} times: {a}")
                file = file.replace(a, b, 1)
                out += ["old: " + a, "new: " + b]
            else:
                out.append(respell.DOC_CODE.sub(lambda m: names(m.group(), renamed), line))
        with open(edit, "w", encoding="utf-8") as f:
            f.write("\n".join(out))


if __name__ == "__main__":
    main()
