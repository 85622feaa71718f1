#!/usr/bin/env python3
"""Lists, for each point of docs/DESIGN-PASS.md, the lines of src/ that may be places of it.

    python3 tools/places.py            the counts, of the files as they are
    python3 tools/places.py COMMIT     the counts at a commit
    python3 tools/places.py -v ..      with the lines

A line is only a place to look: the page says which are places, and what became of them.
"""
import re
import subprocess
import sys

# Each point has patterns, each with what it looks for.
POINTS = {
    1: [
        ("an enum", r"^\s*(pub(\(crate\))? )?enum \w+"),
        ("an error in an Option", r"Option<\w*(Fault|Refusal)>"),
        ("a number for a kind, a class or a refusal", r"\b(number|kind|class|turn): &?u(8|16)\b|\(u16, usize, usize\)"),
        ("a value that says nothing", r"^pub fn \w+\(\) -> u8|else 0[,.]|stands for no|, or the number of all"),
    ],
    2: [
        ("a struct of a value and a place", r"^\s*(pub(\(crate\))? )?struct (Head|Lead|Number|Letter|Spot|Reached|Side|Line|Token|RenameTable|SkipList|Figures|Fault)\b"),
        ("a program's main", r"^fn main"),
    ],
    3: [
        ("a loop", r"^\s*(while |loop \{|for )"),
        ("a count by hand", r"\+= 1;|-= 1;"),
    ],
    4: [
        ("a conversion or printing", r"^\s*(pub(\(crate\))? )?fn (from_\w+|text|\w+_text|figures|refusal|refused|number|place|fault|on|class|told|summed|is|\w+_code|fmt|eq|cmp|clone)\b"),
        ("an `as`", r"\bas (u8|u16|u32|u64|u128|usize)\b"),
    ],
    5: [
        ("a fact that is asked", r"^\s*requires "),
    ],
    6: [
        ("an array in a struct", r"^\s*(pub(\(crate\))? )?\w+: \[[^\]]*; \w+\],"),
        ("a place in a buffer as a parameter", r"\b(at|base|next|from|to): (usize|u128)\b"),
        ("an array as a parameter or a result", r"(&(mut )?|-> )\[\w+; \w+\]"),
    ],
    7: [
        ("a closure, a function as a value", r"\bdyn \b|impl Fn|: Fn\w*\(|\bfn\("),
    ],
}


def files(commit):
    """Each file of src/ with its lines."""
    if commit is None:
        names = subprocess.run(["git", "ls-files", "crates"], check=True, capture_output=True, text=True).stdout.split()
    else:
        names = subprocess.run(["git", "ls-tree", "-r", "--name-only", commit, "crates"], check=True, capture_output=True, text=True).stdout.split()
    for name in names:
        if "/src/" not in name:
            continue
        if commit is None:
            text = open(name).read()
        else:
            text = subprocess.run(["git", "show", f"{commit}:{name}"], check=True, capture_output=True, text=True).stdout
        yield name, text.split("\n")


def main():
    args = sys.argv[1:]
    verbose = "-v" in args
    rest = [a for a in args if a != "-v"]
    commit = rest[0] if rest else None
    texts = list(files(commit))
    for point, patterns in POINTS.items():
        for what, pattern in patterns:
            found = [(f, i, l) for f, lines in texts for i, l in enumerate(lines, 1) if re.search(pattern, l)]
            print(f"{point} {what}: {len(found)}")
            if verbose:
                for f, i, l in found:
                    print(f"    {f}:{i}: {l.strip()}")
    kept = [(f, i, l) for f, lines in texts for i, l in enumerate(lines, 1) if "// Kept:" in l]
    print(f"kept, with a reason: {len(kept)}")
    if verbose:
        for f, i, l in kept:
            print(f"    {f}:{i}: {l.strip()}")


main()
