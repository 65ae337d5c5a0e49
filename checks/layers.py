"""Compares docs/ARCHITECTURE.md with crates.txt: each crate is in one layer, cites no crate of a later one, and has one row, whose column of what it stands on names
crates below it, and covers all that it cites. It prints what differs."""
import re

CRATES, PAGE = "crates.txt", "docs/ARCHITECTURE.md"


def cited():
    """Each crate of the repository with those that it cites, those of the toolchain left out."""
    with open(CRATES, encoding="utf-8") as it:
        lines = [line.partition(":") for line in it if ":" in line and not line.startswith("#")]
    below = {name.split()[0]: rest.split() for name, _, rest in lines}
    return {name: [it for it in its if it in below] for name, its in below.items()}


def all_below(crate, below):
    """What stands under a crate, through as many others as there are."""
    found, left = set(), [crate]
    while left:
        new = set(below[left.pop()]) - found
        found |= new
        left += new
    return found


def layers(page):
    """Each crate with the number of its layer: a line of four spaces, a title, and two spaces or more before the first crate."""
    text = page.partition("## The layers")[2].partition("\n## ")[0]
    lines = [re.fullmatch(r" {4}\S.*? {2,}(\S.*)", line) for line in text.splitlines()]
    return [(crate, number) for number, line in enumerate(lines) if line for crate in line[1].split()]


def layer_faults(page, below):
    found = layers(page)
    level = dict(found)
    for crate in below:
        count = [it for it, _ in found].count(crate)
        if count != 1:
            yield f"{crate}: in {count} layers"
    for crate, number in found:
        for it in below.get(crate, ()):
            if level.get(it, number) > number:
                yield f"{crate}: cites {it}, which is in a later layer"


def row_faults(page, below):
    names = re.compile(r"`(\w+)`")
    rows = [(names.findall(crates), stands_on) for crates, stands_on in re.findall(r"^\| (`[^|]*) \| ([^|]*) \|", page, re.M)]
    for crate in below:
        count = sum(crate in crates for crates, _ in rows)
        if count != 1:
            yield f"{crate}: {count} rows"
    for crates, stands_on in rows:
        told = names.findall(stands_on)
        under = set().union(*(all_below(it, below) for it in crates if it in below))
        for it in told:
            if it not in under:
                yield f"{' '.join(crates)}: does not stand on {it}"
        covered = set(told + crates)
        if "and below" in stands_on:
            covered.update(*(all_below(it, below) for it in told if it in below))
        for it in sorted({it for crate in crates for it in below.get(crate, ())} - covered):
            yield f"{' '.join(crates)}: cites {it} too"


def main():
    below = cited()
    with open(PAGE, encoding="utf-8") as it:
        page = it.read()
    for fault in [*layer_faults(page, below), *row_faults(page, below)]:
        print(fault)


main()
