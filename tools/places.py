#!/usr/bin/env python3
"""Counts the places that docs/DESIGN-PASS.md speaks of, in crates/*/src/*.rt of a commit (or of the files as they stand).

    python3 tools/places.py [COMMIT]        a line for each point: how many places, and which
    python3 tools/places.py --names N [COMMIT]   point N alone, a place a line
"""
import collections
import re
import subprocess
import sys


def files(commit):
    if commit is None:
        import glob

        for path in sorted(glob.glob("crates/*/src/*.rt")):
            yield path, open(path).read()
        return
    names = subprocess.run(["git", "ls-tree", "-r", "--name-only", commit, "crates"], capture_output=True, text=True)
    for path in names.stdout.split():
        if re.fullmatch(r"crates/[^/]+/src/[^/]+\.rt", path):
            shown = subprocess.run(["git", "show", f"{commit}:{path}"], capture_output=True, text=True)
            yield path, shown.stdout


def crate(path):
    return path.split("/")[1]


# A function: its crate, its name with the type of its impl, its parameters, what it returns, its clauses and its body.
Function = collections.namedtuple("Function", "crate name parameters result clauses body")


def functions(path, text):
    inside = None
    lines = text.split("\n")
    i = 0
    while i < len(lines):
        block = re.match(r"(?:impl|pub trait)(?:<[^>]*>)? (?:(\w+)(?:<[^>]*>)? for )?(\w+)", lines[i])
        if block and lines[i].endswith("{"):
            inside = block.group(2)
        if lines[i] == "}":
            inside = None
        head = re.match(r"(\s*)(?:pub )?(?:extern \"C\" )?fn (\w+)", lines[i])
        if not head:
            i += 1
            continue
        indent = head.group(1)
        j = i
        while not (lines[j] == indent + "{" or re.search(r"\{$", lines[j]) and "ensures" not in lines[j]):
            if lines[j].endswith(";"):
                break
            j += 1
        k = j
        while k < len(lines) and lines[k] != indent + "}" and not lines[j].endswith(";"):
            k += 1
        signature = " ".join(lines[i : j + 1])
        parts = re.match(r".*?fn \w+(?:<[^>(]*>)?\((.*?)\)(?: -> (.*?))?(?= +(?:requires|ensures|\{)|$)", signature)
        name = head.group(2) if inside is None else f"{inside}::{head.group(2)}"
        if parts:
            yield Function(crate(path), name, parts.group(1), parts.group(2) or "", signature, "\n".join(lines[j : k + 1]))
        i = max(j, i) + 1


def places(commit):
    found = collections.defaultdict(list)
    clauses = collections.defaultdict(list)
    twins = collections.defaultdict(set)
    for path, text in files(commit):
        name = crate(path)
        for n, line in enumerate(text.split("\n"), 1):
            # 1: a flag with a value beside it
            if re.match(r"\s*(pub )?(ok|fine|homed): bool,", line):
                found[1].append(f"{name}:{n} flag {line.strip()}")
            # 1: a number that stands for a refusal, a server or a kind, in a struct or a list of parameters
            if re.match(r"\s*(pub )?(number|server|stop|due|code|kind|mode|what): u(8|32|64),", line):
                found[1].append(f"{name}:{n} number {line.strip()}")
            # 1: a number that stands for none
            if re.match(r"(pub )?const FRESH: u8 = 255", line):
                found[1].append(f"{name}:{n} number for none")
            # 3: a loop over a counter
            if re.match(r"\s*while .*[<>]", line):
                found[3].append(f"{name}:{n} {line.strip()}")
            # 4: an empty line, or the fresh order, written out
            if re.match(r"\s*valid: false,", line):
                found[4].append(f"{name}:{n} empty line written out")
        for f in functions(path, text):
            whole = f"{f.crate}::{f.name}"
            flat = re.sub(r"\s+", "", f.parameters)
            # 1: a function that returns a refusal as a number, or an index with a bound for none
            if f.result == "u8" and re.search(r"due|stop|execute|transfer_(in|out)$|on_l1p|view_into|put_next|numbers_", f.name):
                found[1].append(f"{whole} -> u8")
            if re.search(r"_find$", f.name) and f.result == "usize":
                found[1].append(f"{whole} -> usize")
            if re.fullmatch(r"plain|numbered|refused", f.name) and "number:" in flat:
                found[1].append(f"{whole}(number)")
            # 2: functions of one name but for the cache or the width
            if f.crate not in ("boundary", "by_value", "command_calls", "each_call", "bench_load", "bench_trace"):
                plain = re.sub(r"l1d|l2|l1p|L1d|L2|L1p", "C", f.name)
                plain = re.sub(r"(order|load|store|move|mar|permuted_)(1|2|4|8|64|128|129)", r"\1N", plain)
                twins[(f.crate, plain)].add(f.name)
            # 4: conversions written by hand
            if re.fullmatch(
                r"wide|wide32|left_for_c|answer_for_c|kind_of|address_of|order\d_(of|word)|mark_of|line_of|bit", f.name
            ):
                found[4].append(f"{whole}: conversion")
            # 5: parameters that always travel together
            if "sram:usize" in flat and "sets:usize" in flat:
                found[5].append(f"{whole}: sram and sets")
            if re.search(r"(tags|words):&mut\[u32\]", flat) and "l1d:&" in flat and "l2:&" in flat and "ext:&" in flat:
                found[5].append(f"{whole}: words and memories")
            for fact in re.findall(r"length (?:tags|words)\.(?:now|old) ≡ (?:record_words|chip_words)|Lent \S+ \S+ tags", f.clauses):
                clauses[re.sub(r"\.(now|old)", "", fact)].append(whole)
            for fact in re.findall(r"\((\w) < (128|512)\) × \(\w < ([24])\)", f.clauses):
                clauses[f"set below {fact[1]}, way below {fact[2]}"].append(whole)
            # 6: a buffer with a place or a length beside it
            if re.search(r"(ring|bytes|output|answers|digits):&(mut)?\[[^,]*,(at|n|count|length):(usize|u32)", flat):
                found[6].append(f"{whole}({f.parameters.strip()})")
            # 7: a number that says which step to run
            if re.search(r"\b(code|times):(u8|u32|usize)", flat) and f.crate not in ("boundary", "c_answers"):
                found[7].append(f"{whole}: {'times' if 'times:' in flat else 'code'}")
    for (name, plain), those in sorted(twins.items()):
        if len(those) > 1:
            found[2].append(f"{name}: " + ", ".join(sorted(those)))
    for fact, those in sorted(clauses.items()):
        if len(set(those)) > 2:
            found[5].append(f"'{fact}' in {len(set(those))} contracts")
    return found


def main():
    words = sys.argv[1:]
    only = None
    if words[:1] == ["--names"]:
        only = int(words[1])
        words = words[2:]
    found = places(words[0] if words else None)
    for point in range(1, 8):
        if only is None:
            print(f"{point}: {len(found[point])}")
        elif only == point:
            print("\n".join(found[point]))


if __name__ == "__main__":
    main()
