"""Reads wrong edits, crates/NAME/must-fail/LABEL.edit, slip by slip, for tests/refused and tests/edits.

A slip is a head, `# NAME: which input is answered how`, with any comment lines right below it, and the
pairs of lines `old:` and `new:` up to the next head. A line `file:` holds for the pairs after it. Goals are named
after conditions, so a slip in one has further pairs, in `proofs/`, by which the answers follow the names; they change
nothing else.
"""
import collections
import os
import re

HEAD = re.compile(r"# ([^\s:]+(?:::[^\s:]+)*): \S")

# What a slip is of, and its pairs: file, old text and new text.
Slip = collections.namedtuple("Slip", "crate label name pairs")


class Bad(Exception):
    """An edit that cannot be read or made, or whose program cannot be run."""


def read(path):
    with open(path, encoding="utf-8") as file:
        return file.read()


def edit_files():
    """Each edit of the crates as NAME/LABEL, in the order of crates.txt."""
    names = [line.split(":")[0].split()[0] for line in read("crates.txt").splitlines() if ":" in line.split("#")[0]]
    folders = [(name, f"crates/{name}/must-fail") for name in names]
    return [
        f"{name}/{file[:-5]}"
        for name, folder in folders
        for file in (sorted(os.listdir(folder)) if os.path.isdir(folder) else [])
        if file.endswith(".edit")
    ]


def slips_of(label):
    """The slips of an edit NAME/LABEL."""
    crate, name = label.split("/")
    slips, file, old, heading = [], "", "", False
    for line in read(f"crates/{crate}/must-fail/{name}.edit").splitlines():
        if line.startswith("#"):
            head = HEAD.match(line)
            if old or not heading and not head:
                raise Bad(f"no head, '# NAME: ', but '{line}'")
            if not heading:
                slips.append(Slip(crate, name, head[1], []))
            heading = True
            continue
        heading = False
        if not slips:
            raise Bad(f"no head, '# NAME: ', stands above '{line}'")
        if line.startswith("file: "):
            file = line[6:]
        elif line.startswith("old: "):
            old = line[5:]
        elif line.startswith("new:") and old:
            slips[-1].pairs.append((file, old, line[4:].removeprefix(" ")))
            old = ""
        elif line:
            raise Bad(f"'{line}' is no line of an edit")
    for slip in slips:
        if not slip.pairs:
            raise Bad(f"the slip of {slip.name} has no pair of 'old:' and 'new:'")
    return slips


def without_names(slip):
    """A slip without the pairs by which answers follow the names of goals."""
    return slip._replace(pairs=[pair for pair in slip.pairs if not pair[0].startswith("proofs/")])


def edited(*slips):
    """The files that slips change, with their new text, as rt must-fail changes them: each pair applies to what the
    earlier ones made."""
    texts = {}
    for path, old, new in ((f"crates/{slip.crate}/{file}", old, new) for slip in slips for file, old, new in slip.pairs):
        text = texts.get(path) or read(path)
        if text.count(old) != 1:
            raise Bad(f"the text 'old: {old}' stands {text.count(old)} times in {path}")
        texts[path] = text.replace(old, new)
    return texts
