#!/usr/bin/env python3
"""Respells this repository's own definitions and lemmas as the language spells names today: words in snake case, a dash only
between two names. usage: tools/respell.py [FOLDER]   rewrites crates/ below the folder (the checkout, by default) in place, once.
It goes by whole tokens: lowerCamel words of .antt files wherever they stand, dashed lemma names where no dot stands before them.
Functions of src/, strings and the names that the prover makes keep their spelling. It prints the names and stops, with nothing
written, if two of them fall together."""

import os
import re
import sys

TOKEN = re.compile(r"(?<![\w'′₀-₉-])(?:[\w'′₀-₉]|(?<=[\w'′₀-₉])-(?=[\w'′₀-₉]))+")
# words of the libraries that are in camel case there, or a bare letter behind a dash that is no name
KEEP = {"decLt", "decLe", "isNone", "getD", "gX", "fullShare"}
# words of the library that lemma names begin with or take
WORDS = "length take drop replicate map reverse paste sum set".split()
# lemmas that port.py respelled and that would now have their function's name: renamed where a file declares or imports them
LEMMAS = "a_word block_words digits_in first_part header_ok in_clean in_use next_word no_copy none_free none_of".split()


def snake(word):
    word = re.sub(r"([a-z0-9])([A-Z])", r"\1_\2", word)
    word = re.sub(r"([A-Z])([A-Z][a-z])", r"\1_\2", word)
    return word.lower()


def files(root):
    for folder, dirs, names in os.walk(os.path.join(root, "crates")):
        dirs[:] = sorted(d for d in dirs if d != "out")
        for name in sorted(names):
            if name.endswith((".antt", ".rt", ".edit")):
                yield os.path.join(folder, name)


def read(path):
    with open(path, encoding="utf-8") as file:
        return file.read()


def code(path, text):
    """The text without comments and strings."""
    text = re.sub(r'"(?:[^"\\\n]|\\.)*"', '""', text)
    return re.sub(r"--.*|^\s*//.*", "", text, flags=re.M) if not path.endswith(".edit") else text


def of_function(path):
    """Whether the file is a function's own proof."""
    return os.path.basename(path) in ("Proof.antt", "Answers.antt", "Invariants.antt")


def gather(root):
    """The lowerCamel words, the dashed lemma names, and every token with the files that have it."""
    seen, camel, dashed, declared = {}, set(), set(), set()
    for path in files(root):
        text = code(path, read(path))
        for token in TOKEN.findall(text):
            seen.setdefault(token, set()).add(path)
        if path.endswith(".antt"):
            camel |= {t for t in TOKEN.findall(text) if re.match(r"[a-z]\w*$", t) and re.search(r"[a-z0-9][A-Z]", t)}
        # names of the libraries that a file imports
        for line in re.findall(r"^(?:ghost )?use (?!Rattle\.(?!std|core|io)).*\.\{(.*)\}", text, re.M):
            declared |= {word.split(" as ")[-1].strip() for word in line.split(",")}
        if path.endswith(".antt") and not of_function(path):
            for line in text.splitlines():
                found = re.match(r"\s*(?:(?:pub|abbrev|unfoldable|ruleset)\s+)*([^\s(){}:,;.]+)\s*:\s", line)
                if found and TOKEN.fullmatch(found[1]):
                    (dashed if "-" in found[1].strip("-") else declared).add(found[1])
    return seen, camel - KEEP, dashed, declared


def parted(segments, names):
    """The segments as names joined by dashes, the fewest, or None."""
    whole = "_".join(segments)
    if whole in names:
        return [whole]
    best = None
    for i in range(len(segments) - 1, 0, -1):
        first = "_".join(segments[:i])
        rest = parted(segments[i:], names) if first in names else None
        if rest and (best is None or len(rest) + 1 < len(best)):
            best = [first, *rest]
    return best


def table(root):
    seen, camel, dashed, declared = gather(root)
    new = {word: snake(word) for word in camel}
    names = {*new.values(), *WORDS}
    for path in files(root):
        if "/specs/" in path and path.endswith(".antt"):
            for line in code(path, read(path)).splitlines():
                found = re.match(r"(?:(?:pub|abbrev|unfoldable)\s+)+([a-z][\w]*)\s*:\s", line)
                if found:
                    names.add(new.get(found[1], found[1]))
    for name in dashed:
        segments = [snake(s) if re.match(r"[a-z]", s) else s for s in name.split("-")]
        parts = parted(segments, names)
        spelled = "-".join(parts) if parts else "_".join(segments)
        new[name] = spelled + "_lem" if spelled in names or spelled in declared else spelled
    return {a: b for a, b in new.items() if a != b}, seen, declared


def together(new, seen, declared):
    """Names that fall together: two old ones with one new name, or a new name that a definition, a lemma or a field has."""
    bad = []
    back = {}
    for a, b in sorted(new.items()):
        back.setdefault(b, []).append(a)
    for b, olds in back.items():
        if len(olds) > 1:
            bad.append((b, olds, "two"))
        if b in declared and b not in LEMMAS:
            bad.append((b, olds, "there: " + " ".join(sorted(os.path.relpath(p) for p in seen[b])[:4])))
    return bad


def turned(path, text, new):
    mine = set()
    if path.endswith(".antt"):
        for word in LEMMAS:
            if re.search(rf"^\s*(?:pub )?{word} : ", text, re.M) and "/specs/" not in path or re.search(rf"^use [\w.'+-]*\.proofs\.[\w.'+-]*\{{[^}}]*(?<![\w-]){word}(?![\w-])", text, re.M):
                mine.add(word)

    def one(found):
        token = found[0]
        if token in mine and text[max(0, found.start() - 1):found.start()] != ".":
            return token + "_lem"
        to = new.get(token)
        if to is None:
            return token
        if "-" in token and text[max(0, found.start() - 1):found.start()] == ".":
            return token
        return to

    return TOKEN.sub(one, text)


def main():
    root = sys.argv[1] if len(sys.argv) > 1 else os.path.dirname(os.path.dirname(os.path.abspath(__file__)))
    new, seen, declared = table(root)
    bad = together(new, seen, declared)
    if bad or "--list" in sys.argv:
        for b, olds, why in bad:
            print(f"{b}: {' '.join(olds)} ({why})")
        if "--list" in sys.argv:
            for a, b in sorted(new.items()):
                print(a, b)
        print(f"{len(new)} names, {len(bad)} fall together: nothing is written")
        return 1 if bad else 0
    for path in files(root):
        text = read(path)
        strings = []

        def hide(found):
            strings.append(found[0])
            return f"\0{len(strings) - 1}\0"

        # strings of the sources stay; the texts of .antt files have none but `text ".."`
        held = re.sub(r'b?"(?:[^"\\\n]|\\.)*"', hide, text)
        held = turned(path, held, new)
        held = re.sub("\0(\\d+)\0", lambda f: strings[int(f[1])], held)
        if held != text:
            with open(path, "w", encoding="utf-8") as file:
                file.write(held)
    print(f"{len(new)} names")
    return 0


if __name__ == "__main__":
    raise SystemExit(main())
