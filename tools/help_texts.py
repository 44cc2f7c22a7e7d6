"""Reads the texts of help, man/tsp.help, man/tstabcomp.help, man/tsswitch.help and man/plugins/NAME.help, and what the code says
of the segments of a command line, of which tools/texts makes most of them.

What the code says is the end of crates/test_explain/stdout, which the gate compares with what is printed of the tables of options:

    help of -P NAME:
    usage: -P NAME [--option N] ..
        --option N: 1 to 31, default 1: what it does
    rule: two sentences

The general options come first, then inputs, outputs and plugins, in the order of the code. A text of a plugin is made of these parts, and tsp.help has rows in the same form:

    NAME: what the plugin does, in one line

        -P NAME [--option N] ..          the synopsis

    Options:
        --option N      1 to 31, default 1: what it does
    Rule:
        two sentences
    Example, what it shows:
        tsp ..

A row begins after four spaces, and goes on where a line has more of them. Two spaces or a line's end part what is
written from what it means. Where numbers have ranges, these come first, up to a colon.
"""
import functools
import pathlib
import re
import typing

TOP = pathlib.Path(__file__).resolve().parent.parent
MAN = TOP / "man"

# The first line of what the code says of segments, which stands behind all else that the program prints.
FIRST = "help of the general options:\n"


class Row(typing.NamedTuple):
    """What can be written, as `--pid LIST`, and what it means, with its ranges at the beginning."""
    form: str
    meaning: str

    @property
    def is_option(self):
        return self.form.startswith("--")

    @property
    def name(self):
        """The option's name, and of an operand the whole form."""
        return self.form.split()[0] if self.is_option else self.form

    @property
    def value(self):
        """What stands for the option's value, and nothing for a flag."""
        return self.form.partition(" ")[2] if self.is_option else self.form


class Segment(typing.NamedTuple):
    """What the code says of the general options, an input, an output or a plugin."""
    first: str
    name: str
    usage: str
    options: list
    rule: str

    @property
    def names(self):
        """The names of its options, without their dashes."""
        return {it.name[2:] for it in self.options if it.is_option}


class Plugin(typing.NamedTuple):
    """The text of a plugin."""
    name: str
    summary: str
    synopsis: str
    options: list
    rule: str
    shows: str
    example: list


def rows_of(lines):
    """The rows of a part."""
    rows = []
    for line in lines:
        if re.match(r" {4}\S", line):
            form, _, meaning = line.strip().partition("  ")
            rows.append(Row(form, meaning.strip()))
        elif line.startswith(" " * 5) and rows:
            rows[-1] = Row(rows[-1].form, f"{rows[-1].meaning} {line.strip()}".strip())
    return rows


def parts_of(text):
    """The parts of a text: each line that begins at the margin, with the lines after it."""
    parts = []
    for line in text.splitlines():
        if line and not line.startswith(" "):
            parts.append((line, []))
        elif line:
            parts[-1][1].append(line)
    return parts


def plugin(name, text):
    """The plugin of a text, which has to have all parts and no others."""
    parts = parts_of(text)
    heads = [head.split(",")[0].rstrip(":") for head, _ in parts[1:]]
    named, colon, summary = parts[0][0].partition(": ")
    if heads != ["Options", "Rule", "Example"] or not colon or named != name:
        raise SystemExit(f"man/plugins/{name}.help: not of the form that tools/help_texts.py tells")
    (_, synopsis), (_, options), (_, rule), (shows, example) = parts
    return Plugin(name, summary, " ".join(" ".join(synopsis).split()), rows_of(options), " ".join(" ".join(rule).split()),
                  shows[len("Example, "):].rstrip(":"), [line[4:] for line in example])


def plugin_names():
    """The plugins in the order in which the code lists them."""
    listed = (TOP / "crates/plugin_settings/plugins.txt").read_text(encoding="utf-8").splitlines()
    return [line.split()[0] for line in listed if line.strip() and not line.startswith("#")]


def plugins():
    """All plugins, of their texts as they stand."""
    return [plugin(name, (MAN / "plugins" / f"{name}.help").read_text(encoding="utf-8")) for name in plugin_names()]


def rows_in(text, head):
    """The rows of one part of a text."""
    return next(rows_of(lines) for line, lines in parts_of(text) if line.startswith(head))


def rows(program, head):
    """The rows of one part of man/PROGRAM.help as it stands."""
    return rows_in((MAN / f"{program}.help").read_text(encoding="utf-8"), head)


def segment(head, usage, lines):
    """The segment of its lines: the one with its name, its usage, and those of its options, of which the last is its rule."""
    first, name = re.fullmatch(r"help of (\S+) (.+):", head).groups()
    options = [Row(*line.strip().split(": ", 1)) for line in lines[:-1]]
    return Segment(first, name, usage.partition(": ")[2], options, lines[-1].partition(": ")[2])


@functools.lru_cache(None)
def segments():
    """All that the code says of segments, in its order."""
    _, first, said = (TOP / "crates/test_explain/stdout").read_text(encoding="utf-8").partition(FIRST)
    heads = re.split(r"(?m)^(?=help of )", first + said)
    return [segment(head, usage, lines) for head, usage, *lines in (it.splitlines() for it in heads if it)]


def segment_of(first, name):
    """What the code says of one segment, as of `-P`, `filter`."""
    return next(it for it in segments() if (it.first, it.name) == (first, name))
