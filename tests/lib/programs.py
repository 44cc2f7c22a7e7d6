"""Which programs the scripts of tests/ and bench/ run, and on which streams. None of them builds a program.

Each of these scripts takes `--program PATH` among its words: PATH is the program to run, or, where the script runs several,
that one of them whose name it has; or it is a folder with programs of these names. Without it a script runs the program of
dist/ where that was built from the sources as they stand, else crates/NAME/out/NAME where that was. Where there is none
the script says so and ends with the status SKIPPED, by which tests/all knows that nothing was tried.

Importing this module takes these words out of sys.argv.
"""
import os
import pathlib
import subprocess
import sys

TOP = pathlib.Path(__file__).resolve().parents[2]

# Streams that other tools made, with what other tools say of them.
DATA = TOP / "tests" / "data"

# The exit status of a script that cannot be run here.
SKIPPED = 77


def given():
    """The paths that are given after --program, which are taken out of the words."""
    paths = []
    while "--program" in sys.argv:
        at = sys.argv.index("--program")
        if at + 1 == len(sys.argv):
            sys.exit("--program wants a path")
        paths.append(pathlib.Path(sys.argv[at + 1]).resolve())
        del sys.argv[at:at + 2]
    return paths


GIVEN = given()


def skip(why):
    """Ends a script that cannot be run here."""
    print(f"{pathlib.Path(sys.argv[0]).name}: skipped: {why}")
    sys.exit(SKIPPED)


def sums(*words):
    """What tools/release/sums answers, or None where it fails."""
    done = subprocess.run(["sh", TOP / "tools" / "release" / "sums", *words], stdout=subprocess.PIPE, text=True, check=False)
    return done.stdout.strip() if done.returncode == 0 else None


def claimed(name, field):
    """What dist/SUMS says of a program, nothing where it does not."""
    return sums("--field", TOP / "dist" / "SUMS", name, field)


def is_of_dist(name):
    """Whether the program of dist/ is the one that dist/SUMS tells of, and was built from the sources as they stand."""
    path = TOP / "dist" / name
    return (os.access(path, os.X_OK) and sums("--file", path) == claimed(name, "sha256")
            and sums("--sources", name) == claimed(name, "sources"))


def built(name):
    """The program that was built here from the sources as they stand, or None."""
    path = TOP / "crates" / name / "out" / name
    return path if sums("--built", name) is not None and os.access(path, os.X_OK) else None


def program(name, is_only=True):
    """The program to run; with is_only a path that was given counts whatever its name is."""
    for path in GIVEN:
        if path.is_dir() and (path / name).is_file():
            return path / name
        if path.is_file() and (is_only or path.name == name):
            return path
    found = TOP / "dist" / name if is_of_dist(name) else built(name)
    command = f"./{name}" if (TOP / name).is_file() else f"tools/launch {name} /dev/null"
    return found or skip(f"there is no program {name} of these sources; `{command} --build` builds one")


def folder():
    """The folder of streams that the script's first word names, or that of this repository."""
    return pathlib.Path(sys.argv[1]) if len(sys.argv) > 1 else DATA
