#!/usr/bin/env python3
"""Lists the lines of src/ at which the older forms of this repository would stand, point by point, as docs/DESIGN-PASS.md counts them.

    python3 tools/design/places.py [COMMIT]

With no commit it reads the files as they stand. A line that is listed is a candidate: the page says which are places.
"""
import collections
import re
import subprocess
import sys

commit = sys.argv[1] if len(sys.argv) > 1 else None


def run(*words):
    return subprocess.run(words, capture_output=True, text=True, check=True).stdout


def files(pattern):
    listed = run("git", "ls-tree", "-r", "--name-only", commit) if commit else run("git", "ls-files", "--cached", "--others", "--exclude-standard")
    return [f for f in sorted(set(listed.split("\n"))) if re.fullmatch(pattern, f)]


def text(file):
    return run("git", "show", f"{commit}:{file}") if commit else open(file).read()


SOURCES = {f: text(f) for f in files(r"crates/.*/src/.*\.rt")}


def lines(pattern, but=None):
    for file, source in SOURCES.items():
        for number, line in enumerate(source.split("\n"), 1):
            bare = line.strip()
            if bare.startswith(("//", "ghost use", "use ")):
                continue
            if re.search(pattern, line) and not (but and re.search(but, line)):
                yield f"{file}:{number}: {bare}"


def show(point, what, found):
    found = list(found)
    print(f"\n{point} {what}: {len(found)}")
    for line in found:
        print("   ", line)


def signatures():
    for file, source in SOURCES.items():
        for name, rest in re.findall(r"\bfn (\w+)(?:<[^(]*>)?\(([^{;]*?)\)\s*(?:->|\n|\{|;)", source):
            names = re.findall(r"(?:^|,)\s*(?:mut )?(\w+):", rest.replace("\n", " "))
            yield file, name, names


show("1a", "enums", lines(r"\benum \w+"))
show("1b", "a number for a kind: constants and fields", lines(r"const (HEADING|TERMS|HOLDING|LEG): u8|\bahead: u8|kind(\(&self\))?(: u8| -> u8)|match kind|[<>] COIN_LEDGERS"))
show("1c", "a number for a refusal", lines(r"=> \d+,"))
show("1d", "a flag", lines(r"let mut \w+(: bool)? = (false|true)"))
show("1e", "0 for none", lines(r"\[0; ROOM\]|\] == 0|\] > 0"))
show("3", "loops", lines(r"^\s*('\w+: )?(for\b.*\bin\b|while\b|loop\b)"))
show("4a", "conversions by `as`", lines(r"\bas (u8|u16|u32|u64|u128|usize)\b"))
show("4b", "equality, order, words by hand", lines(r"fn (same|precedes|words|told|in_words|eq|cmp|partial_cmp|clone|default)\("))
show("4c", "impls of conversions and of printing", lines(r"impl.*\b(From|TryFrom|Display|PartialEq|Eq|Ord|PartialOrd|Clone|Default)\b.* for "))
show("5a", "`requires`", lines(r"\brequires\b"))
together = collections.defaultdict(list)
for file, name, names in signatures():
    for i in range(len(names)):
        for j in range(i + 1, len(names)):
            together[tuple(sorted((names[i], names[j])))].append(f"{file.split('/')[1]}::{name}")
show("5b", "pairs of parameters in three functions of a crate or more", (
    f"{a}, {b}: {' '.join(sorted(set(where)))}"
    for (a, b), where in sorted(together.items())
    if any(n > 2 for n in collections.Counter(w.split("::")[0] for w in set(where)).values())))
show("6", "arrays, a length beside, indices", lines(r"\[[^\]]*; [A-Z]\w*\]|\blen: (usize|u8)|\w\[\w+( as usize)?\]", but=r"#\["))
show("7", "function values, steps by number", lines(r"\bdyn\b|\bimpl Fn|\bfn\(|: F\b"))
print("\n8 files of answers and invariants, and their lines:", sum(1 for _ in files(r"crates/.*/proofs/.*/(Answers|Invariants|Proof)\.antt")),
      sum(text(f).count("\n") for f in files(r"crates/.*/proofs/.*/(Answers|Invariants|Proof)\.antt")))
print("8 files of lemmas, and their lines:", len(files(r"crates/[^/]*/proofs/[A-Z]\w*\.antt")),
      sum(text(f).count("\n") for f in files(r"crates/[^/]*/proofs/[A-Z]\w*\.antt")))
print("8 lines that name the stopgap `ByRecursion`:", sum(text(f).count("ByRecursion") for f in files(r"crates/.*\.(antt|rt)")))
