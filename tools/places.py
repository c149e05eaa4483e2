#!/usr/bin/env python3
"""Counts the places of src/ at which an older form of the language may stand.

    tools/places.py             the counts of this tree, a line for each search
    tools/places.py --list      the same, and each place with its file and line
    tools/places.py --at COMMIT the counts of the src/ folders of a commit
    tools/places.py --check     fails where docs/DESIGN-PASS.md names another count of this tree

A search finds candidates: whether one is an older form is said in docs/DESIGN-PASS.md.
"""
import collections
import pathlib
import re
import subprocess
import sys

TOP = pathlib.Path(__file__).resolve().parent.parent

# Searches by the line: a name, and what stands on the line.
LINES = [
    ("1a enums", r"^ *(pub |pub\(crate\) )?enum \w+"),
    ("1b answers that are bool", r"-> bool\b"),
    ("1c answers that are an Option of an error", r"-> Option<(Refusal|What|Fault)>"),
    ("1d numbers called kind, left or number", r"\b(kind|left|number): u\d+|fn number"),
    ("3a loops by while, loop or over a range", r"\b(while|loop)\b.*\{$|\bfor \w+ in [^{]*\.\."),
    ("4a matches", r"\bmatch\b.*\{$"),
    ("4b arms that hand an error or nothing on", r"\b(Err\(\w+\)|None) => "),
    ("4c words put together byte by byte", r"from_[bl]e_bytes\(\["),
    ("4d comparisons part by part", r"\w+ [!=]= [\w.]+ && \w[\w.]* == |\[i\] [!=<]"),
    ("6a arrays in fields", r"^ +(pub(\(crate\))? )?\w+: \[\w+; \w+\]"),
    ("7a function pointers and dyn", r"\bdyn\b|: fn\(|<fn\("),
]


def sources(commit):
    """The texts of all files of src/, by their names."""
    if commit is None:
        return {
            str(path.relative_to(TOP)): path.read_text()
            for path in sorted(TOP.glob("crates/*/src/**/*.rt"))
        }
    names = subprocess.run(
        ["git", "ls-tree", "-r", "--name-only", commit, "crates"],
        cwd=TOP, check=True, capture_output=True, text=True,
    ).stdout.split()
    return {
        name: subprocess.run(
            ["git", "show", f"{commit}:{name}"],
            cwd=TOP, check=True, capture_output=True, text=True,
        ).stdout
        for name in names
        if re.match(r"crates/\w+/src/.*\.rt$", name)
    }


def functions(text):
    """Each function: its line, its name, its parameters and its body."""
    for found in re.finditer(r"\bfn (\w+)", text):
        depth, at = 0, text.find("(", found.end())
        start = at
        while at < len(text):
            depth += {"(": 1, ")": -1}.get(text[at], 0)
            at += 1
            if depth == 0:
                break
        parameters = text[start + 1:at - 1]
        body = re.search(r"^(.*\{|\s*\{)$", text[at:], re.M)
        rest = text[at:]
        begin = re.search(r"(?:^\s*\{$)|(?:(?<!ensures) \{$)", rest, re.M)
        semicolon = rest.find(";\n")
        if not begin or (0 <= semicolon < begin.start()):
            yield text.count("\n", 0, found.start()) + 1, found[1], parameters, ""
            continue
        depth, end = 0, begin.end() - 1
        while end < len(rest):
            depth += {"{": 1, "}": -1}.get(rest[end], 0)
            end += 1
            if depth == 0:
                break
        yield text.count("\n", 0, found.start()) + 1, found[1], parameters, rest[begin.end():end - 1]


def shape(body):
    """A body without its names and numbers."""
    body = re.sub(r"//.*", "", body)
    body = re.sub(r'"[^"]*"|\b\w+\b', "_", body)
    return re.sub(r"\s+", " ", body).strip()


def twins(texts):
    """Functions whose bodies are alike but for names and numbers, tests apart."""
    alike = collections.defaultdict(list)
    for name, text in texts.items():
        if "device_tests" in name:
            continue
        for line, function, _, body in functions(text):
            form = shape(body)
            if form.count("_") >= 12:
                alike[form].append(f"{name}:{line}: {function}")
    return [" ~ ".join(places) for places in alike.values() if len(places) > 1]


def clauses(texts):
    """Clauses that stand three times or more."""
    times = collections.Counter()
    for text in texts.values():
        for clause in re.findall(r"\b(?:requires|ensures)(?: \w+)? (\{.*\})", text):
            times[clause] += 1
    return [f"{count} times {clause}" for clause, count in sorted(times.items()) if count > 2]


def companions(texts):
    """Two neighbouring parameters or fields that stand together three times or more."""
    together = collections.defaultdict(list)
    for name, text in texts.items():
        if "device_tests" in name:
            continue
        groups = [(line, function, parameters) for line, function, parameters, _ in functions(text)]
        for struct in re.finditer(r"\b(?:struct \w+[^{;(]*|[A-Z]\w+) \{([^{}=]*)\}", text):
            groups.append((text.count("\n", 0, struct.start()) + 1, "fields", struct[1]))
        for line, function, parameters in groups:
            named = re.findall(r"(\w+): ([^,\n]+)", parameters)
            for one, other in zip(named, named[1:]):
                pair = f"{one[0]}: {one[1]}, {other[0]}: {other[1]}"
                together[pair].append(f"{name}:{line}: {function}")
    return [
        f"{len(places)} times {pair}" for pair, places in sorted(together.items()) if len(places) > 2
    ]


def found(texts):
    """All searches, in order, each with its places."""
    all_found = {}
    for name, pattern in LINES:
        all_found[name] = [
            f"{file}:{number}: {line.strip()}"
            for file, text in texts.items()
            for number, line in enumerate(text.split("\n"), 1)
            if re.search(pattern, line) and not line.lstrip().startswith("//")
        ]
    all_found["2a functions alike but for names and numbers"] = twins(texts)
    all_found["5a clauses that stand three times or more"] = clauses(texts)
    all_found["5b neighbours in three places or more"] = companions(texts)
    return dict(sorted(all_found.items()))


def main(words):
    commit = words[words.index("--at") + 1] if "--at" in words else None
    counted = found(sources(commit))
    if "--check" in words:
        page = (TOP / "docs" / "DESIGN-PASS.md").read_text()
        wrong = [
            f"{name}: {len(places)}"
            for name, places in counted.items()
            if not re.search(rf"^\| {re.escape(name)} \| \d+ \| {len(places)} \|", page, re.M)
        ]
        for line in wrong:
            print(f"places.py: docs/DESIGN-PASS.md does not say: {line}")
        return 1 if wrong else 0
    for name, places in counted.items():
        print(f"{len(places):4} {name}")
        if "--list" in words:
            for place in places:
                print(f"       {place}")
    return 0


if __name__ == "__main__":
    sys.exit(main(sys.argv[1:]))
