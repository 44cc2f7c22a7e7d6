"""Reads the rows of options in the code, to compare the range with which a meaning begins with what the option takes.

A row is `OptionWord::Value("pid", Takes::Ranges(LAST_PID))` with `value: "LIST"` and `meaning: "0 to 8191: .."`. The gate compares texts
with texts, and the clauses of the rows say nothing of them, so nothing else would see a range that is told wrong.
"""
import functools
import pathlib
import re

TOP = pathlib.Path(__file__).resolve().parents[2]
ROW = re.compile(r'OptionWord::\w+\(\s*"([a-z-]+)"(.*?)\),\s*text: OptionText \{\s*value: "([^"]*)",\s*meaning:\s*"((?:[^"\\]|\\.)*)"', re.S)

# `0 to 31`, `-5 to 5` or `ID 1 to 65535`, and such ranges at the beginning of a meaning.
NUMBER = r"(?:2\^\d+(?: - 1)?|-?\d[\d,]*\d|-?\d)"
RANGE = rf"(?:([A-Z]+) )?({NUMBER}) to ({NUMBER})(?: bytes)?"
RANGES = re.compile(rf"(?:{RANGE})(?:, (?:{RANGE}))*")


def number(text):
    """The number of `8191`, `1,000,000`, `2^40` or `2^64 - 1`."""
    power, _, less = text.replace(",", "").partition(" - ")
    base, _, exponent = power.partition("^")
    return int(base) ** int(exponent or 1) - int(less or 0)


@functools.lru_cache(None)
def constants():
    """The constants of the sources, by name, each with its file and the text of its number."""
    found = {}
    for path in sorted(TOP.glob("crates/*/src/*.rt")):
        for name, value in re.findall(r"const (\w+): \w+ = ([^;]+);", path.read_text(encoding="utf-8")):
            found.setdefault(name, []).append((path, value))
    return found


def value_of(word, path):
    """The number of a word in a file: a literal, or a constant of this file, of its crate, or of another crate."""
    if word[0].isdigit():
        return int(word.replace("_", ""))
    named = sorted(constants()[word], key=lambda it: (it[0] != path, it[0].parent != path.parent))
    home, text = named[0]
    text = re.sub(r" as \w+", "", text).replace("u64::MAX", str(2**64 - 1))
    return eval(re.sub(r"\b[A-Z]\w+\b", lambda it: str(value_of(it[0], home)), text), {})  # pylint: disable=eval-used


def taken(takes, path):
    """The least and the greatest numbers of what an option takes, in their order; none of a flag, a text, a choice or words."""
    kind, _, words = takes.partition("Takes::")[2].partition("(")
    if kind in ("Choice", "Words"):
        return []
    if kind.strip().startswith("Service"):
        return [1, value_of("LAST_SERVICE", path)]
    numbers = [value_of(it, path) for it in re.findall(r"(?<!:)\b(?:[A-Z][A-Z_]+\b|\d[\d_]*)", words)]
    return [0, *numbers] if kind == "Ranges" else numbers


def told(value, meaning):
    """The numbers of the ranges with which a meaning begins: of those with a name, where there is one for this value, that one."""
    found = RANGES.match(meaning)
    ranges = re.findall(RANGE, found[0]) if found else []
    own = [it for it in ranges if it[0] == value] or ranges
    return [number(it) for _, *ends in own for it in ends]


def range_faults():
    """Where a meaning begins with another range than that of what the option takes."""
    faults = []
    for path in sorted(TOP.glob("crates/*/src/*.rt")):
        for name, takes, value, meaning in ROW.findall(path.read_text(encoding="utf-8")):
            wanted, said = taken(takes, path), told(value, meaning)
            if said != wanted:
                faults.append(f"{path.relative_to(TOP)}: {name}: told {said}, wanted {wanted}")
    return faults
