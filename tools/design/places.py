#!/usr/bin/env python3
"""Counts the places of docs/DESIGN-PASS.md in crates/*/src: `tools/design/places.py [POINT]` lists them, one a line, and a count a point.

A place is found by the text alone, so the list has places too that stay for a reason; the page says which."""
import re
import sys
from collections import defaultdict
from pathlib import Path

ROOT = Path(__file__).resolve().parents[2]
SOURCES = sorted(ROOT.glob("crates/*/src/**/*.rt"))
FUNCTION = re.compile(r"^( *)(?:pub )?(?:extern \"C\" )?fn (\w+)", re.M)


def name_of(path):
    return str(path.relative_to(ROOT / "crates"))


def without_comments(text):
    return re.sub(r"//[^\n]*", "", text)


def functions():
    """Each function: file, line, name, parameters as (name, type), its clauses and its body, with neither comments nor tests."""
    for path in SOURCES:
        text = without_comments(path.read_text())
        for found in FUNCTION.finditer(text):
            indent, name = found.group(1), found.group(2)
            rest = text[found.start():]
            end = re.search(rf"^{indent}\}}$", rest, re.M)
            whole = rest[: end.end()] if end else rest
            opening = re.search(r"fn \w+(<[^(]*>)?\(", whole).end() - 1
            depth, at = 0, opening
            while True:
                depth += {"(": 1, ")": -1}.get(whole[at], 0)
                if depth == 0:
                    break
                at += 1
            parameters = []
            for part in whole[opening + 1 : at].split(","):
                if ":" in part:
                    parameters.append(tuple(x.strip() for x in part.split(":", 1)))
            start = re.search(rf"^{indent}\{{$|\{{\n", whole[at:], re.M)
            body = whole[at + start.end() :] if start else ""
            clauses = whole[at : at + start.start()] if start else ""
            line = text[: found.start()].count("\n") + 1
            yield name_of(path), line, name, parameters, clauses, body


def lines(pattern):
    for path in SOURCES:
        for number, line in enumerate(path.read_text().splitlines(), 1):
            if not line.lstrip().startswith("//") and re.search(pattern, line):
                yield f"{name_of(path)}:{number}: {line.strip()}"


def enums():
    """Enums of which all variants but one, or all but two, carry nothing, or one of which is a refusal: the shapes of Option and Result."""
    for path in SOURCES:
        text = without_comments(path.read_text())
        for found in re.finditer(r"enum (\w+)[^{]*\{(.*?)\n\}", text, re.S):
            variants = [v.strip().rstrip(",") for v in found.group(2).splitlines() if v.strip()]
            if 2 <= len(variants) <= 3 and any("(" in v for v in variants):
                yield f"{name_of(path)}: {found.group(1)} {{ {', '.join(variants)} }}"


def flags():
    """Structs with a `bool` beside other fields."""
    for path in SOURCES:
        text = without_comments(path.read_text())
        for found in re.finditer(r"struct (\w+)[^{(;]*\{(.*?)\n\}", text, re.S):
            if re.search(r": bool,", found.group(2)):
                yield f"{name_of(path)}: {found.group(1)}"


def codes():
    """Constants that number kinds, reasons, needs, rows or steps."""
    yield from lines(r"^(pub )?const [A-Z_]+: (u8|u64|usize|bool) = (\d|true|false)")


def twins():
    """Functions whose bodies are the same but for names and numbers, where the body has at least three lines."""
    groups = defaultdict(list)
    for path, line, name, _, _, body in functions():
        shape = re.sub(r"\s+", " ", re.sub(r"b?[\"'][^\"']*[\"']|\b\w+\b", "x", body)).strip()
        if len([l for l in body.splitlines() if l.strip(" }")]) >= 3:
            groups[shape].append(f"{path}:{line} {name}")
    for same in groups.values():
        if len(same) > 1:
            yield " = ".join(same)


def loops():
    yield from lines(r"^\s*('\w+: )?(while|loop)\b")


def copies():
    """Values made of another's fields one by one, and functions that convert, compare or print."""
    yield from lines(r"^\s*(\w+): \w+\.\1,$")
    yield from lines(
        r"fn (number|reason|letter|bit|wide|encode|decode|digit|digit_value|spell|flatten\w*|mapping_numbers|numbers|append_\w+|update_answer"
        r"|validate_answer|fixed_refusal|told|smaller|least|less)\b"
    )


def together():
    """Groups of parameters that three functions or more have, each by name and type: the widest ones."""
    groups = defaultdict(set)
    for path, line, name, parameters, _, _ in functions():
        names = [p for p, _ in parameters]
        for size in range(2, len(names) + 1):
            for start in range(len(names) - size + 1):
                groups[tuple(names[start : start + size])].add(f"{path} {name}")
    for group, where in sorted(groups.items(), key=lambda g: (-len(g[0]), g[0])):
        if len(where) >= 3 and not any(
            set(where) <= set(groups[wider]) for wider in groups if len(wider) > len(group) and
            any(wider[i : i + len(group)] == group for i in range(len(wider)))
        ):
            yield f"{', '.join(group)}: {len(where)} functions"


def facts():
    """Facts that a `requires` asks, with their names left out, where two functions or more ask the same."""
    asked = defaultdict(set)
    for path, line, name, _, clauses, _ in functions():
        for clause in re.findall(r"requires[^{]*\{(.*?)\}\s*(?=ensures|requires|$)", clauses, re.S):
            for fact in re.split(r" × ", clause):
                shape = re.sub(r"[\d^]+ *\^? *\d*", "n", fact.strip(" ()\n")).strip()
                asked[shape].add(f"{path} {name}")
    for fact, where in sorted(asked.items()):
        if len(where) >= 2:
            yield f"{fact}: {', '.join(sorted(where))}"


def buffers():
    """Functions with a lent buffer and, beside it, a number that says how much of it counts."""
    for path, line, name, parameters, _, _ in functions():
        for (one, kind), (two, number) in zip(parameters, parameters[1:]):
            if re.match(r"&(mut )?\[", kind) and number == "usize" and two in ("filled", "count", "kept", "printed", "at", "from", "turns"):
                yield f"{path}:{line} {name}({one}, {two})"


def switches():
    """Functions that take a flag or a number that says what they do."""
    for path, line, name, parameters, _, _ in functions():
        for one, kind in parameters:
            if one in ("writes", "instruction", "covered", "leaf_refused", "stays", "base"):
                yield f"{path}:{line} {name}({one}: {kind})"


def answers():
    """Lines of proof a crate: its answers and invariants, and its lemmas."""
    for crate in sorted(ROOT.glob("crates/*/")):
        own = [p for p in crate.glob("proofs/**/*.antt")]
        goals = [p for p in own if p.name in ("Answers.antt", "Invariants.antt")]
        count = lambda files: sum(len(p.read_text().splitlines()) for p in files)
        if own:
            yield f"{crate.name}: {len(goals)} files of answers, {count(goals)} lines; {count(set(own) - set(goals))} lines of lemmas"


POINTS = {
    "1 enums of the shape of Option or Result": enums,
    "1 flags with a value beside them": flags,
    "1 numbers for kinds, reasons, rows and steps": codes,
    "2 functions alike but for names and numbers": twins,
    "3 while and loop": loops,
    "4 copied, converted, compared or printed by hand": copies,
    "5 parameters that travel together": together,
    "5 facts that two functions or more require": facts,
    "6 buffers with a length or a place beside them": buffers,
    "7 flags and numbers that choose a step": switches,
    "8 lines of proof": answers,
}


def main():
    wanted = sys.argv[1] if len(sys.argv) > 1 else ""
    for title, places in POINTS.items():
        if title.startswith(wanted):
            found = list(places())
            print(f"## {title}: {len(found)}")
            for place in found:
                print("  " + place)


main()
