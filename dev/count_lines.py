#!/usr/bin/env python3
"""Counts the lines of each crate: code with its contracts and laws (src), definitions (specs) and proofs.

    dev/count_lines.py            prints a Markdown table, a crate in a line, and the sums

All lines are counted, comments and blank ones among them. Crates of tests have code, too.
"""

from built import ROOT


def lines_of(folder, ending):
    """How many lines the files of this kind have, in all folders below."""
    return sum(len(it.read_text().splitlines()) for it in folder.rglob(f"*{ending}"))


def counted(root):
    """Each crate with its lines of code, of definitions and of proofs."""
    for crate in sorted((root / "crates").iterdir()):
        if (crate / "src").is_dir():
            yield crate.name, lines_of(crate / "src", ".rt"), lines_of(crate / "specs", ".antt"), lines_of(crate / "proofs", ".antt")


def row(name, code, specs, proofs):
    return f"| {name} | {code:,} | {specs:,} | {proofs:,} | {proofs / code:.2f} |"


def main():
    crates = list(counted(ROOT))
    print("| Crate | Code | Definitions | Proofs | Proofs to code |")
    print("|---|---:|---:|---:|---:|")
    for crate in crates:
        print(row(*crate))
    print(row("all", *(sum(crate[column] for crate in crates) for column in (1, 2, 3))))


if __name__ == "__main__":
    main()
