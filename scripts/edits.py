"""What the scripts know of must-fail edits: the parts of an edit, the lines that rt prints of them, and what the first error in such a
line shows."""
import re

# What a first error says where a fact no longer holds: two sides that differ, numbers at which a goal fails, a comparison
# that is false, a clause of the right program that the check finds alone and no longer finds.
SHOWS = ("the two types differ", "the two types first differ", "differ only", "the two sides first differ", "the goal fails",
         "the part fails", "does not hold", "does not follow from what it read", "the facts known there allow values", "it is not proved that")
# The same of two short types, which antt prints whole, in one line. rt cuts a long line.
BOTH = re.compile("expected type `[^`?]+`, but this has type `[^`?]+(?:`|$)")
# And what says nothing of a fact, whatever else stands there.
HIDES = ("plain {n =", "has no `", "is not in scope", "has no field", "was not admitted")
# The line of an edit: what it came to stands between the label and the first error.
LINE = re.compile(r"^rt: must-fail (\w+)/([\w.-]+)\.edit: (refused, as it must be|[A-Z ]+)([^\n]*)$", flags=re.M)


def parts(path):
    """What is wrong with the program, the fact that breaks, its names in the specification, the file, the replacements."""
    wrong, breaks, named, file, old, pairs = [], [], [], "", "", []
    into = wrong
    for line in open(path, encoding="utf-8").read().splitlines():
        if line.startswith("# wrong: "):
            into = wrong
            into.append(line[9:].strip())
        elif line.startswith("# breaks: "):
            into = breaks
            into.append(line[10:].strip())
        elif line.startswith("# named: "):
            into = named
            into.append(line[9:].strip())
        elif line.startswith("# "):
            into.append(line[2:].strip())
        elif line.startswith("file: "):
            file = line[6:].strip()
        elif line.startswith("old: "):
            old = line[5:].strip()
        elif line.startswith("new: "):
            pairs.append((old, line[5:].strip()))
        elif line.startswith("new:"):
            pairs.append((old, ""))
    return " ".join(wrong), " ".join(breaks), " ".join(named), file, pairs


def tries(said):
    """Of what rt ci or rt must-fail printed, by crate and label: whether the edit was refused by an error, and what rt says of it."""
    return {(crate, label): (came == "refused, as it must be" and not rest.startswith(" ("), rest.split(": ", 1)[-1].strip())
            for crate, label, came, rest in LINE.findall(said)}


def shown(tried):
    """Whether the first error shows a fact that no longer holds, and where it stands with what it says."""
    if tried is None:
        return False, "rt says nothing of it"
    refused, said = tried
    place = re.search(r"(?:^|[\s/])((?:proofs|specs|src)/\S+?):\d+", said)
    name = re.search(r"error(?:\[[^]]*\])?: `([^`]+)`", said) or re.search(r"it is not proved that .*?\(`([^`]+)`", said)
    shows = refused and (any(word in said for word in SHOWS) or BOTH.search(said) is not None) and not any(word in said for word in HIDES)
    words = re.sub(r"^.*?:\d+:\d+: (?:error(?:\[[^]]*\])?: (?:`[^`]+`: )?)?", "", said)
    where = " ".join(filter(None, [place.group(1) if place else "", "`%s`" % name.group(1) if name else ""]))
    return shows, "%s: %s" % (where, words)
