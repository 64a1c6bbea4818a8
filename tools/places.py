#!/usr/bin/env python3
"""Counts the places that docs/DESIGN-PASS.md speaks of: `tools/places.py [-v] [ROOT]`. With -v each place is listed."""
import collections
import difflib
import glob
import itertools
import re
import sys

KINDS = ("face turns damage group mix format source_format target_format sampler source_layout target_layout layout "
         "number eights code slot").split()
BY_HAND = ("apart less cut together rise fall square wrapped_sum wrapped_difference highest_bit row_before "
           "twos_complement low_byte store signed two_bytes four_bytes same_numbers format_of sampler_of refusal_code "
           "number_at half_number").split()
PATTERNS = [
    ("1", "enums", r"^ *(?:pub )?enum "),
    ("1", "results by hand", r"Refused\(|::Accepted"),
    ("1", "flags: parameters and fields that are a bool", r"\b[a-z_0-9]+: bool\b"),
    ("1", "kinds as numbers", r"\b(?:%s)\b: u64" % "|".join(KINDS)),
    ("3", "loops by while", r"^ *while "),
    ("4", "by hand what the library has", r"magnitude\(|wide\(|fn (?:%s)\(" % "|".join(BY_HAND)),
    ("6", "tables by their length", r"\[(?:i64|u64|u32); ?(?:18|256|512|1024)\]"),
]
FUNCTION = re.compile(r"^( *)(?:pub |pub\(crate\) )?(?:extern \"C\" )?fn (\w+)(?:<[^>]*>)?\(([^{]*?)\)(?: -> [^\n{]+)?\n"
                      r"((?: +(?:requires|ensures)[^\n]*\n(?: {8,}[^\n]*\n)*)*)\1\{\n(.*?)^\1\}", re.S | re.M)


def functions(root):
    for path in sorted(glob.glob(root + "/crates/*/src/*.rt")):
        for match in FUNCTION.finditer(open(path).read()):
            yield path[len(root) + 8:], match


def lines(root, pattern):
    for path in sorted(glob.glob(root + "/crates/*/src/*.rt")):
        for number, line in enumerate(open(path), 1):
            if re.search(pattern, line):
                yield "%s:%d: %s" % (path[len(root) + 8:], number, line.strip())


def twins(root):
    bodies = []
    for path, match in functions(root):
        words = re.findall(r"\w+|[^\w\s]", re.sub(r"//.*", "", match.group(5)))
        if len(words) >= 25:
            bodies.append((path + "::" + match.group(2), words))
    for (a, x), (b, y) in itertools.combinations(bodies, 2):
        if min(len(x), len(y)) >= 0.7 * max(len(x), len(y)):
            likeness = difflib.SequenceMatcher(None, x, y, autojunk=False).ratio()
            if likeness >= 0.8:
                yield "%.2f %s %s" % (likeness, a, b)


def facts(root):
    found = collections.defaultdict(set)
    for path, match in functions(root):
        for clause in re.finditer(r"requires \w* ?\{((?:[^{}]|\{[^{}]*\})*)\}", match.group(4)):
            for fact in re.sub(r"\s+", " ", clause.group(1)).split(" × "):
                found[fact.strip().strip("()")].add(path + match.group(2))
    for fact, places in sorted(found.items(), key=lambda item: -len(item[1])):
        if len(places) >= 3:
            yield "%d %s" % (len(places), fact)


def parameters(root):
    for path, match in functions(root):
        names = [name for name in match.group(3).split(",") if name.strip()]
        if len(names) >= 7:
            yield "%d %s::%s" % (len(names), path, match.group(2))


def main():
    verbose = "-v" in sys.argv
    rest = [word for word in sys.argv[1:] if word != "-v"]
    root = rest[0] if rest else "."
    rows = [(point, name, list(lines(root, pattern))) for point, name, pattern in PATTERNS]
    rows += [("2", "pairs of functions whose bodies are alike to 0.8", list(twins(root))),
             ("5", "facts in three `requires` or more", list(facts(root))),
             ("5", "functions of seven parameters or more", list(parameters(root)))]
    answers = glob.glob(root + "/crates/*/proofs/**/Answers.antt", recursive=True)
    rows.append(("8", "answers", [line for path in sorted(answers) for line in open(path)
                                  if re.match(r"pub [^ ]+ : goal\.", line)]))
    for point, name, places in sorted(rows, key=lambda row: row[0]):
        print("%s  %4d  %s" % (point, len(places), name))
        if verbose:
            for place in places:
                print("         " + place.rstrip())


main()
