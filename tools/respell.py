#!/usr/bin/env python3
"""Spells the repository's own definitions and lemmas as today's Rattle does: words in snake case. Run once, right after the kit's port.py.

usage: respell.py [--check]        at the top of the repository; --check writes nothing, and shows the names that fall together

A name that an .antt file below crates/ declares turns where it stands in .antt files, in the clauses of .rt files, in must-fail edits, and in the code spans of pages:
  kindOf      -> kind_of
  pages-fit   -> pages_fit; the dash stays where it joins two names, as in length-take
A lemma that would have its function's name gets _lem. A name that only a function's Proof.antt declares stays, for Rattle made it.
A name that a library has too stays (STAY).
"""
import collections
import os
import re
import sys

STAY = {"and-false", "and-true", "length-map", "length-take", "length-take-le", "map-append"}
# Lemmas that a file has beside a definition that comes to have their name.
LEMMAS = set("both_words ends_at first_byte fits_on fresh_at fresh_in has_word is_block load_store none_out not_there one_in pair_is put_count".split())
# Constructors: each has the name of the call that it observes, which files write behind its module's name.
CALLS = set("take-blocks medium-take-blocks release-blocks medium-release-blocks release-bin-chunks grow-frontier".split())
MODIFIERS = r"(?:(?:abbrev|pub|private|opaque|abstract|unfoldable|record|data)\s+)*"
DECLARED = re.compile(rf"^( *)({MODIFIERS})([^\s(){{}}.;,@\"«»:]+(?: [^\s(){{}}.;,@\"«»:=]+)*?)((?: \{{[^{{}}\n]*\}})*(?: \([^()\n]*\))*) :(?: |$)", re.M)
COMMENT = re.compile(r"(?<![^\s(){}.;,])--[^\n]*")
WORD = re.compile(r'[^\s(){}.;,@"«»]+')
CODE = re.compile(r'//[^\n]*|[^\s(){}.;,@"«»\[\]<>&*!?:|]+')
# Names of the libraries that lemmas speak of.
LIBRARY = set("length drop take set sets paste get_or replicate append map reverse filter every any all count total elem cond not eqb add mul sub div mod pow min max suc zero some none".split())


def texts(top, ends):
    for folder, dirs, files in os.walk(top):
        made = (".git", "target", "out") if os.path.isdir(os.path.join(folder, "src")) else (".git", "target")
        dirs[:] = sorted(d for d in dirs if d not in made)
        for f in sorted(files):
            if f.endswith(ends) and not os.path.islink(os.path.join(folder, f)):
                yield os.path.join(folder, f)


def read(path):
    with open(path, encoding="utf-8") as f:
        return f.read()


def in_snake_case(name):
    # A word of capitals at the head is a type, and keeps its capital.
    return re.sub(r"(?<=[a-z0-9])[A-Z]", lambda m: "_" + m[0].lower(), name) if name[0].islower() else name


def declared():
    own, elsewhere = collections.defaultdict(set), set()
    for path in texts("crates", ".antt"):
        for m in DECLARED.finditer(COMMENT.sub("", read(path))):
            for name in m[3].split():
                own[name].add(path)
                if not path.endswith("/Proof.antt"):
                    elsewhere.add(name)
    return own, elsewhere


def spelled(own, elsewhere):
    """The new name of each name that turns."""
    old = [n for n in elsewhere if n not in STAY and (re.search(r"\w'*-\w", n) or re.match(r"[a-z][a-z0-9_]*[A-Z]", n))]
    names = LIBRARY | {in_snake_case(n) for n in own if "-" not in n}
    new, taken = {}, {n for n in own if n not in old}
    for n in sorted(old, key=lambda n: ("-" in n, n)):
        parts = in_snake_case(n).split("-")
        to = "_".join(parts)
        if n in CALLS:
            new[n] = to
            continue
        for i in range(1, len(parts)):
            left, right = "_".join(parts[:i]), "_".join(parts[i:])
            if left in names and right in names:
                to = left + "-" + right
        if "-" in n and to in taken:
            to += "_lem"
        new[n] = to
        if to in taken and to not in LEMMAS:
            print(f"fall together: {n} and another are {to}")
        taken.add(to)
    new.update({n: n + "_lem" for n in LEMMAS})
    return new


def turn(text, new, word=WORD):
    return word.sub(lambda m: new.get(m[0], m[0]), text)


def pages(text, new):
    return re.sub(r"`[^`\n]+`", lambda m: turn(m[0], new, re.compile(r"[^\s(){}.;,@\"«»`:/]+")), text)


def main():
    check = "--check" in sys.argv
    own, elsewhere = declared()
    new = spelled(own, elsewhere)
    every = new
    camel = {a: b for a, b in new.items() if "-" not in a and a not in LEMMAS}
    seen = collections.Counter()
    for path in texts("crates", (".antt", ".rt", ".edit")):
        text = read(path)
        if path.endswith(".antt"):
            out, at = [], 0
            new = {a: b for a, b in every.items() if a not in LEMMAS or not re.search(rf"use denote[^\n]*\b{a}\b", text)}
            for m in COMMENT.finditer(text):
                out += [turn(text[at : m.start()], new), turn(m[0], camel)]
                at = m.end()
            after = "".join(out) + turn(text[at:], new)
        else:
            after = CODE.sub(lambda m: turn(m[0], camel) if m[0].startswith("//") else camel.get(m[0], m[0]) if m[0] in LEMMAS else every.get(m[0], m[0]), text)
        if check:
            bare = {m[0] for m in WORD.finditer(COMMENT.sub("", text)) if text[m.start() - 1 : m.start()] != "."} if path.endswith(".antt") else set(re.findall(r"(?<![.\w])\w+", re.sub(r"//[^\n]*", "", text)))
            for m in set(WORD.findall(COMMENT.sub("", text))):
                if m in new and new[m] != m and new[m] in bare and new[m] not in LEMMAS:
                    print(f"meets: {path}: {m} -> {new[m]}")
                    seen[m] += 1
        elif after != text:
            with open(path, "w", encoding="utf-8") as f:
                f.write(after)
    for path in list(texts(".", ".md")):
        if path.endswith("PORT.md"):
            continue
        text = read(path)
        after = pages(text, new)
        if not check and after != text:
            with open(path, "w", encoding="utf-8") as f:
                f.write(after)
    print(f"{len(new)} names turn; {len(seen)} meet another name in a file")


if __name__ == "__main__":
    main()
