#!/usr/bin/env python3
"""Counts the places in the sources that read like an older style, kind by kind.

    python3 tools/places.py                    how many of each kind
    python3 tools/places.py --list             every place, with its file and line
    python3 tools/places.py --at COMMIT [..]   the same of a commit

The counts are of texts, so they also find places that are as they should be; a line
`// Kept: ..` beside such a place says why.
"""
import collections
import re
import subprocess
import sys

STEP = re.compile(r"^(?P<in> *)(pub(\([a-z]+\))? )?(const )?fn (?P<name>\w+)", re.M)
# Names that a trait or a habit gives to functions of several crates.
EXPECTED = set(
    "new fmt from default main begin add solve value capacity width full_room take pass and or xor not constant"
    " lane_count eq clone clear len push get of over next is_empty as_slice try_from number refusal sentence"
    " inputs outputs gates record amend strike".split()
)


def sources(commit):
    """The text of each source file and proof file, by its path."""
    if commit:
        paths = subprocess.run(["git", "ls-tree", "-r", "--name-only", commit, "crates"], capture_output=True, text=True, check=True).stdout.split()
        read = lambda path: subprocess.run(["git", "show", f"{commit}:{path}"], capture_output=True, text=True, check=True).stdout
    else:
        paths = subprocess.run(["git", "ls-files", "--cached", "--others", "--exclude-standard", "crates"], capture_output=True, text=True, check=True).stdout.split()
        read = lambda path: open(path, encoding="utf-8").read()
    wanted = [p for p in sorted(set(paths)) if re.search(r"/src/.*\.rt$|/proofs/.*\.antt$", p)]
    texts = {}
    for path in wanted:
        try:
            texts[path] = read(path)
        except FileNotFoundError:
            pass
    return texts


def line_of(text, at):
    return text.count("\n", 0, at) + 1


def matches(texts, pattern):
    """Each place in src/ where the pattern is found."""
    pattern = re.compile(pattern, re.M)
    for path, text in texts.items():
        if "/src/" in path:
            for m in pattern.finditer(text):
                yield path, line_of(text, m.start()), " ".join(m.group(0).split())[:100]


def crate(path):
    return path.split("/")[1]


def twin_functions(texts):
    """Functions of one name in several crates."""
    found = collections.defaultdict(list)
    for path, text in texts.items():
        if "/src/" in path:
            for m in STEP.finditer(text):
                if m["name"] not in EXPECTED:
                    found[m["name"]].append((path, line_of(text, m.start()), "fn " + m["name"]))
    for name, places in sorted(found.items()):
        if len({crate(p) for p, _, _ in places}) > 1:
            yield from places


def twin_constants(texts):
    """Constants of one name and value in several files."""
    found = collections.defaultdict(list)
    for path, line, text in matches(texts, r"^\s*(pub(\([a-z]+\))? )?const \w+: [^=;]+ = [^;{]+;"):
        found[re.sub(r"^pub(\([a-z]+\))? ", "", text)].append((path, line, text))
    for text, places in sorted(found.items()):
        if len(places) > 1:
            yield from places


def repeated_clauses(texts):
    """Clauses that stand in three functions or more, but those on a solver's soundness and a sink's readiness."""
    found = collections.defaultdict(list)
    for path, line, text in matches(texts, r"^\s+(requires|ensures)\*? ?\w* ?\{[^\n]*\}$"):
        if re.search(r"\b(sound|ready)\b", text):
            continue
        found[re.sub(r"^(requires|ensures)\*? ?\w* ?", "", text)].append((path, line, text))
    for text, places in sorted(found.items()):
        if len(places) > 2:
            yield from places


def travelling_parameters(texts):
    """Functions that share a row of three parameters, by name and type, with two others or more."""
    found = collections.defaultdict(list)
    head = re.compile(r"fn (\w+)(<[^(]*>)?\(([^)]*)\)", re.M)
    for path, text in texts.items():
        if "/src/" not in path:
            continue
        for m in head.finditer(text):
            names = [" ".join(p.split()) for p in m[3].split(",") if ":" in p]
            for i in range(len(names) - 2):
                found[tuple(names[i : i + 3])].append((path, line_of(text, m.start()), m[1] + ": " + ", ".join(names[i : i + 3])))
    for row, places in sorted(found.items()):
        if len(places) > 2:
            yield from places


def answers(texts):
    """Goals that a proof file answers."""
    for path, text in texts.items():
        if path.endswith("Answers.antt"):
            for m in re.finditer(r"^pub [^\n:]* : goal\.", text, re.M):
                yield path, line_of(text, m.start()), m.group(0)


def lemmas(texts):
    """Lemmas of the repository's own."""
    for path, text in texts.items():
        if path.endswith(".antt") and not re.search(r"/(Answers|Invariants|Proof|Lib)\.antt$", path):
            for m in re.finditer(r"^(pub )?[\w'-]+ : ", text, re.M):
                yield path, line_of(text, m.start()), m.group(0)


KINDS = [
    ("1 an Option handed on by hand", lambda t: matches(t, r"let [^;]*? else \{\s*return (None|Ok\(None\));|None => None")),
    ("1 a flag in a struct", lambda t: matches(t, r"^\s+(pub(\([a-z]+\))? )?\w+: bool,$")),
    ("1 a number for a kind or a refusal", lambda t: matches(t, r"=> [0-9]+,$|number: [0-9]+,|fn (done|answer|value|count)\b[^\n]*u8")),
    ("1 a place that reports success by bool", lambda t: matches(t, r"fn \w+\(&mut self[^)]*\) -> bool")),
    ("2 functions of one name in several crates", twin_functions),
    ("2 constants of one name and value in several files", twin_constants),
    ("2 functions that a number word tells apart", lambda t: matches(t, r"fn \w+_(one|two|three|long|bits|unknown|words)\b|fn write_\w+_or_pass")),
    ("2 lists in an array with a count", lambda t: matches(t, r"^\s+(pub(\([a-z]+\))? )?(\w*count|len): usize,$")),
    ("3 a loop over a range of numbers", lambda t: matches(t, r"^\s+for \w+ in [^{]*\.\.[^{]*\{")),
    ("3 a while loop", lambda t: matches(t, r"^\s+while [^{]*\{")),
    ("3 a loop that only looks for the first hit", lambda t: matches(t, r"for [^{\n]* in [^{\n]*\{\n\s+if [^{\n]*\{\n\s+return [^;]*;\n\s+\}\n\s+\}")),
    ("3 an enumerated loop that indexes", lambda t: matches(t, r"for \((\w+), \w+\) in [^{\n]*enumerate\(\) \{\n[^}]*?\[\1( \+ 1)?\]")),
    ("4 a trait of std written out", lambda t: matches(t, r"impl(<[^{\n]*>)? (\w+::)?(PartialEq|Eq|Clone|Copy|PartialOrd|Ord|Default|Debug) for ")),
    ("4 a conversion or comparison by a function", lambda t: matches(t, r"fn (byte|refusal|kind_of|reading|digit|symbol|is_word|same_name|agrees|is_as_measured|done|answer|on_line|place|literal|negation|plain|negated)\b")),
    ("5 a clause that stands in three functions", repeated_clauses),
    ("5 a row of three parameters in three functions", travelling_parameters),
    ("6 an array of fixed length in a struct or a result", lambda t: matches(t, r"^\s+(pub(\([a-z]+\))? )?\w+: \[[^\]]*; [^\]]*\],$|-> \[[^\]]*; [^\]]*\]")),
    ("6 an array that is filled piece by piece", lambda t: matches(t, r"let mut \w+ = \[[^\]]*; [^\]]*\];|let mut \w+ = \[[^\]]*\{$")),
    ("7 the same step with and without a switch", lambda t: matches(t, r"fn \w+_or_\w+|fn\([^)]*\) ->|Box<dyn|\w+: bool[,)]")),
    ("8 answers", answers),
    ("8 lemmas", lemmas),
]


def main(args):
    commit = args[args.index("--at") + 1] if "--at" in args else None
    texts = sources(commit)
    for name, find in KINDS:
        places = list(find(texts))
        print(f"{len(places):5}  {name}")
        if "--list" in args and not name.startswith("8"):
            for path, line, text in places:
                print(f"         {path}:{line}: {text}")
    proofs = sum(text.count("\n") for path, text in texts.items() if path.endswith(".antt"))
    print(f"{proofs:5}  lines of proofs")


if __name__ == "__main__":
    main(sys.argv[1:])
