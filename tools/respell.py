#!/usr/bin/env python3
"""Brings this repository's own definitions and lemmas to the spelling of today's Rattle.

usage: python3 tools/respell.py        at the top of the repository, once, after the toolchain's port.py

Words of antt are in snake case, types and modules in upper camel case. A dash stays only where it joins two names that are
defined themselves (`length-drop`). Names of Rattle sources, names that Rattle generates and the library's names are not touched.
Names that fall together are printed, and then nothing is written.
"""

import collections
import os
import re
import subprocess
import sys

KIT = "/opt/rattle/rattle"
TOKEN = re.compile(r"[^\s(){}\[\],;.:\"⌜⌝]+")
SIGNATURE = re.compile(r"^\s*(?:(?:abbrev|unfoldable|pub|ruleset)\s+)*([^\s(){}\[\],;.:\"]+)\s+:(?:\s|$)")
TYPE = re.compile(r"^\s*(?:pub\s+)?(?:record|data)\s+([^\s(){}\[\],;.:\"]+)")
CAMEL = re.compile(r"(?<=[a-z0-9₀-₉'])(?=[A-Z])")
MADE = re.compile(
    r"^(returns|ensures|requires|invariant|decreases|loop|overflow|bounds|slice_bounds|nonzero|offset|prove|Need|After|At|In|Then|Else|Joined|Start|pairs)"
    r"(-.*|\d*-.*)$"
)


def files(root, endings):
    for folder, dirs, names in os.walk(root):
        dirs[:] = sorted(d for d in dirs if d not in ("out", ".git", "target"))
        for name in sorted(names):
            if name.endswith(endings):
                yield os.path.join(folder, name)


def read(path):
    with open(path, encoding="utf-8") as f:
        return f.read()


def code(line):
    return "" if line.lstrip().startswith("--") else line


def defined(paths):
    """The names that these files define, with where."""
    found = collections.defaultdict(set)
    for path in paths:
        for line in map(code, read(path).split("\n")):
            m = SIGNATURE.match(line) or TYPE.match(line)
            if m:
                found[m.group(1)].add(path)
    return found


def snake(part):
    """A part of a name with no dash: types keep their capitals."""
    return CAMEL.sub("_", part).lower() if part[:1].islower() and part.isascii() or part[:1].islower() else part


def respelled(name, known):
    parts = [CAMEL.sub("_", p).lower() if p[:1].islower() else p for p in name.split("-")]
    for i in range(1, len(parts)):
        left, right = "_".join(parts[:i]), "_".join(parts[i:])
        if left in known and right in known:
            return left + "-" + right
    return "_".join(parts)


def is_made(path):
    """A file in which most names with a dash are Rattle's own."""
    return "/Proof" in path


def renamings(crates):
    own = defined(files(crates, (".antt",)))
    theirs = set()
    for folder in ("std", "logic", "antt", "core"):
        theirs |= set(defined(files(os.path.join(KIT, folder), (".antt",))))
    words = set(defined(files(os.path.join(KIT, "std/specs"), (".antt",))))
    spec = {n for n, where in own.items() if any("/specs/" in p for p in where)}
    known = {n for n in words if len(n) > 1} | {respelled(n, ()) for n in spec}
    turned = {}
    for path in files(crates, (".antt",)):
        for line in map(code, read(path).split("\n")):
            for t in TOKEN.findall(line):
                if t in turned or t in theirs or not t[:1].isalpha():
                    continue
                if "-" in t and (t not in own or MADE.match(t)):
                    continue
                if not ("-" in t or (t[:1].islower() and CAMEL.search(t))):
                    continue
                turned[t] = respelled(t, () if t in spec else known)
    return {a: b for a, b in turned.items() if a != b}, own, theirs


def clashes(turned, own, theirs):
    to = collections.defaultdict(set)
    for a, b in turned.items():
        to[b].add(a)
    for b, froms in sorted(to.items()):
        if len(froms) > 1:
            yield f"{sorted(froms)} fall together as {b}"
        elif b in own:
            yield f"{sorted(froms)} falls on {b}, which is defined in {sorted(own[b])[:3]}"
        elif b in theirs:
            yield f"{sorted(froms)} falls on the library's {b}"


# Two names that would fall together: a lemma with its function's name gets `_lem`, a constructor the article of what it is of.
APART = {
    "all-of": "all_of_lem",
    "left-of": "left_of_lem",
    "no-free-slot": "no_free_slot_lem",
    "own-link": "own_link_lem",
    "record-sound": "record_sound_lem",
    "lengths-fit": "lengths_fit_lem",
    "serve-pop": "serve_pop_lem",
    "at-work": "at_work_lem",
    "return-number": "return_number_lem",
    "save-number": "save_number_lem",
    "loads-own": "loads_own_lem",
    "puts-own": "puts_own_lem",
    "one-word": "one_word_lem",
    "well-formed": "well_formed_lem",
    "push-holds": "a_push_holds",
    "pop-holds": "a_pop_holds",
    "pop-gives": "a_pop_gives",
    "is_open": "is_open_lem",
}
# The same, in some files alone.
APART_IN = {
    ("goes_on", "crates/schedule"): "goes_on_lem",
    ("at_head", "crates/model/proofs/progress/TogetherSteps.antt"): "at_its_head",
}
# Folders of lemmas that are modules.
MODULES = {
    "model": "bridge chain invariant laws ledger lists machine places progress tags tests unsound".split(),
    "threads": "follow lists split".split(),
}
FUNCTION = re.compile(r"\bfn\s+([a-z0-9_]+)")
DOC_CODE = re.compile(r"`[^`\n]+`")


def upper(module):
    return module[:1].upper() + module[1:]


def functions(crates):
    """Names of functions with an underscore, as an older Rattle spelled them in what it made, and as they are."""
    found = set()
    for path in files(crates, (".rt",)):
        found |= {f for f in FUNCTION.findall(read(path)) if "_" in f}
    return {f.replace("_", "-"): f for f in found}


def made_name(token, by_dash):
    """A name that Rattle makes of a function's, as `After-call-of` or `call-of2`: the function keeps its spelling."""
    m = re.match(r"^((?:After|Need)-)?(.*?)(\d*)(-requires(?:-\d+)?|-\d+)?$", token)
    middle = m.group(2)
    if middle + m.group(3) in by_dash:
        return (m.group(1) or "") + by_dash[middle + m.group(3)] + (m.group(4) or "")
    first = middle[:1].lower() + middle[1:]
    if middle in by_dash:
        return (m.group(1) or "") + by_dash[middle] + m.group(3) + (m.group(4) or "")
    if first in by_dash and middle[:1].isupper():
        made = by_dash[first]
        return (m.group(1) or "") + made[:1].upper() + made[1:] + m.group(3) + (m.group(4) or "")
    return token


def turn_code(text, turn, comment):
    """`turn` over the tokens of the code, and over those that stand in comments between backticks."""
    out = []
    for line in text.split("\n"):
        at = line.find(comment)
        body, rest = (line, "") if at < 0 else (line[:at], line[at:])
        if comment == "//" and '"' in body and not line.lstrip().startswith("ghost"):
            parts = re.split(r'("(?:[^"\\]|\\.)*")', body)
            body = "".join(p if p.startswith('"') else TOKEN.sub(lambda m: turn(m.group()), p) for p in parts)
        else:
            body = TOKEN.sub(lambda m: turn(m.group()), body)
        rest = DOC_CODE.sub(lambda m: TOKEN.sub(lambda n: n.group()[:0] + (turn(n.group().strip("`")) if n.group().strip("`") == n.group() else n.group().replace(n.group().strip("`"), turn(n.group().strip("`")))), m.group()), rest)
        out.append(body + rest)
    return "\n".join(out)


USE = re.compile(r"^[ \t]*(?:unfoldable |abbrev |pub |ghost )*use (.*)$", re.M)


def turn_path(text, before):
    """A path or a group of them, in which each module below `Rattle.CRATE.proofs` is spelled as it is now."""
    out, path, depth, piece = "", list(before), 0, ""
    stack = []
    for part in re.findall(r"[{},.;]|[^{},.;]+", text):
        if part == "{":
            stack.append(list(path))
        elif part == "}":
            path = stack.pop() if stack else path
        elif part == ",":
            path = list(stack[-1]) if stack else []
        elif part not in ".;":
            name = part.strip()
            if len(path) == 3 and path[0] == "Rattle" and path[2] == "proofs" and name in MODULES.get(path[1], ()):
                part = part.replace(name, upper(name))
            path.append(name.split(" ")[0])
        out += part
    return out


def turn_modules(text):
    """The modules of lemmas in paths of imports."""
    return USE.sub(lambda m: m.group()[: m.start(1) - m.start()] + turn_path(m.group(1), []), text)


def main():
    crates = "crates"
    turned, own, theirs = renamings(crates)
    turned |= APART
    by_dash = functions(crates)
    for path in list(files(crates, (".antt", ".rt"))):
        old = read(path)
        walked = "/Proof" in path and path.endswith(".antt")
        here = {a: b for (a, where), b in APART_IN.items() if path.startswith(where)}

        def turn(token):
            if token in here:
                return here[token]
            if token in turned and not (path.endswith(".rt") and token == "is_open"):
                return turned[token]
            return made_name(token, by_dash) if walked and "-" in token else token

        new = turn_modules(turn_code(old, turn, "--" if path.endswith(".antt") else "//"))
        if path.endswith("proofs/Lib.antt"):
            crate = path.split("/")[1]
            for m in MODULES.get(crate, ()):
                new = re.sub(rf"^(pub mod |mod ){m}$", lambda k: k.group(1) + upper(m), new, flags=re.M)
        if new != old:
            with open(path, "w", encoding="utf-8") as f:
                f.write(new)
    for crate, names in MODULES.items():
        for m in names:
            for end in (".antt", ""):
                a, b = f"{crates}/{crate}/proofs/{m}{end}", f"{crates}/{crate}/proofs/{upper(m)}{end}"
                if os.path.exists(a):
                    subprocess.run(["git", "mv", a, b], check=True)
    with open("tools/respelled.txt", "w", encoding="utf-8") as f:
        f.writelines(f"{a} {b}\n" for a, b in sorted(turned.items()))


if __name__ == "__main__":
    main()
