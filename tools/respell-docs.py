#!/usr/bin/env python3
"""Turns the names of definitions and lemmas in the documents as those of crates/ were turned. usage: tools/respell-docs.py [OLD]
rewrites README.md and docs/ in place, but for docs/PORT.md, and the comments of include/, rust/ and examples/; only what stands inside
backticks. OLD is the commit before the names were turned (0369861, by default): what a file of specs/ or proofs/ declared there and
what the same file declares now, in the same order, are an old name and a new one. It prints the names that it turned, and those inside
backticks that OLD declared and that nothing declares now."""

import collections
import difflib
import os
import re
import subprocess
import sys

ROOT = os.path.dirname(os.path.dirname(os.path.abspath(__file__)))
TOKEN = re.compile(r"(?<![\w'′₀-₉-])(?:[\w'′₀-₉]|(?<=[\w'′₀-₉])-(?=[\w'′₀-₉]))+")
DECLARED = re.compile(r"^\s*(?:(?:abbrev|unfoldable|pub) )*(?:(?:record|data) )?([^\s(){}:,;.=]+)(?: [({].*[)}])? : ")
PAGES = ("README.md", "docs/", "include/", "rust/", "examples/")
ENDS = (".md", ".rs", ".h", ".c", ".sheet")


def git(*words):
    return subprocess.run(["git", *words], cwd=ROOT, stdout=subprocess.PIPE, check=True, text=True, encoding="utf-8").stdout


def read(path):
    with open(os.path.join(ROOT, path), encoding="utf-8") as file:
        return file.read()


def declared(text):
    lines = [line for line in text.split("\n") if not line.lstrip().startswith("--") and not line.startswith("use ")]
    return [found[1] for found in map(DECLARED.match, lines) if found]


def plain(name):
    """A name without its spelling."""
    return re.sub(r"[-_]", "", name).lower().replace("′", "'").removesuffix("lem")


def table(old):
    """The names that were turned, and all that stand declared now."""
    new, now = collections.defaultdict(collections.Counter), set()
    there = set(git("ls-files", "crates").split("\n"))
    for path in git("ls-tree", "-r", "--name-only", old, "crates").split("\n"):
        if not path.endswith(".antt") or path not in there:
            continue
        were, are = declared(git("show", "%s:%s" % (old, path))), declared(read(path))
        now |= set(are)
        alike = difflib.SequenceMatcher(None, list(map(plain, were)), list(map(plain, are)), autojunk=False)
        for kind, a, b, c, d in alike.get_opcodes():
            if kind == "equal" or kind == "replace" and b - a == d - c:
                for one, other in zip(were[a:b], are[c:d]):
                    new[one][other] += 1
    return {one: others.most_common(1)[0][0] for one, others in new.items()}, now


def main():
    new, now = table(sys.argv[1] if len(sys.argv) > 1 else "0369861")
    turned, lost = collections.Counter(), collections.Counter()

    def one(found):
        token = found[0]
        to = new.get(token)
        # a word without a capital or a dash is as likely a word of the text
        if to is None or to == token or not re.search(r"[A-Z-]", token[1:]):
            return token
        turned[token, to] += 1
        return to

    for path in git("ls-files").split("\n"):
        if not path.startswith(PAGES) or not path.endswith(ENDS) or path == "docs/PORT.md":
            continue
        text = read(path)
        # code spans, of one backtick or two; a block of code has three
        made = re.sub(r"(?<!`)(`{1,2})(?!`)((?:(?!\1).)+?)\1(?!`)", lambda span: TOKEN.sub(one, span[0]), text, flags=re.S)
        for span in re.findall(r"(?<!`)`([^`\n]+)`(?!`)", made):
            lost.update((path, word) for word in TOKEN.findall(span) if word in new and word not in now)
        if made != text:
            with open(os.path.join(ROOT, path), "w", encoding="utf-8") as file:
                file.write(made)
    for (token, to), count in sorted(turned.items()):
        print("%s %s (%d)" % (token, to, count))
    for (path, word), count in sorted(lost.items()):
        print("left in %s: %s" % (path, word))
    print("%d names turned, in %d places" % (len(turned), sum(turned.values())))


main()
