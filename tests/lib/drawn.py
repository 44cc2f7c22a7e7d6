"""Chains of plugins that are drawn, with sizes, for the scripts that try the program with many of them."""
import random
import subprocess

from lib import programs

GENERAL = ["", "", "--ignore-joint-termination", "--add-start-stuffing 3 --add-stop-stuffing 2", "--add-input-stuffing 2/7"]

# A plugin's words, with numbers drawn: `{few}` up to 40, `{many}` up to 4000, `{pid}` one that is met often,
# and `{service}` one that a stream has.
PLUGINS = {
    "filter": ["filter --pid 0-300 --negate --stuffing", "filter --pid {pid} --negate", "filter --unit-start --set-label 3",
               "filter --pcr --negate"],
    "skip": ["skip {few}", "skip {many}"],
    "slice": ["slice --null {few} --drop {many}", "slice --drop {few} --pass {many}", "slice --pass 1 --stop {many}",
              "slice --milliseconds --drop {few} --pass {many}", "slice --milliseconds --null 0 --pass {few} --pcr-pid {pid}"],
    "pattern": ["pattern C0FFEE --offset-pusi {few}", "pattern AB --pid {pid} --negate"],
    "until": ["until --packets {many}", "until --bytes {many} --exclude-last", "until --unit-start-count {few}",
              "until --packets {few} --joint-termination", "until --unit-start-count {few} --joint-termination",
              "until --seconds 1", "until --seconds 0 --pcr-pid {pid} --exclude-last", "until --seconds 1 --joint-termination"],
    "count": ["count", "count --total", "count --all --pid {pid}", "count --only-label 3",
              "count --total --every {few}", "count --every {many} --only-label 3"],
    "continuity": ["continuity", "continuity --fix", "continuity --every {few}"],
    "pcrverify": ["pcrverify --bitrate 13536000", "pcrverify --bitrate {many} --jitter-max {few}",
                  "pcrverify --bitrate 2600000 --jitter-max 0 --pid {pid}", "pcrverify --bitrate 13536000 --every {many}"],
    "timestamps": ["timestamps", "timestamps --pid {pid} --pcr", "timestamps --csv --pts --dts", "timestamps --only-label 3",
                   "timestamps --pcr --every {many}"],
    "rate": ["rate", "rate --interval 100 --pid {pid}", "rate --interval 250 --min {many} --max 20000000", "rate --pcr-pid {pid} --only-label 3",
             "rate --every {many}"],
    "monitor": ["monitor", "monitor --priority 3 --bitrate 2600000", "monitor --priority 3 --pid-gap {few} --pcr-pid {pid}", "monitor --only-label 3",
                "monitor --priority 1 --every {many}"],
    "remap": ["remap --no-psi --unchecked {source}=33", "remap --no-psi 7777=7778", "remap --unchecked {source}=33",
              "remap {source}=257"],
    "inject": ["inject {table} --pid {source} --replace", "inject {table} --pid 4000 --inter-packet {few}",
               "inject {table} --pid {source} --inter-packet {few} --every 66/{few},0/{many},1/3 --fix-counters"],
    "pat": ["pat --remove-service {service} --increment-version", "pat --ts-id {few}"],
    "cat": ["cat --add-ca 0x1800/{source}"],
    "pmt": ["pmt --pmt-pid {source} --add-pid 300/{few}", "pmt --pmt-pid {source} --language 300/deu --remove-pid {few}-301 --drop",
            "pmt --service {service} --add-pid 300/{few} --remove-pid {source},301 --drop --stuffing", "pmt --service {service} --increment-version"],
    "sdt": ["sdt --service {service} --name other", "sdt --remove-service {service}"],
    "nit": ["nit --network-name net"],
    "eit": ["eit --service {service} --name other", "eit --service {service} --shift=-{many} --running-status 4", "eit --service {service} --remove --only-label 3"],
    "time": ["time --shift=-{many}", "time --shift=3600", "time --shift=0 --only-label 3"],
    "zap": ["zap {service}", "zap {service} --stuffing", "zap {service} 1 769", "zap {service} --keep nit,bat,eit,time"],
    "svremove": ["svremove {service}", "svremove {service} --stuffing", "svremove {service} 1 769", "svremove --everywhere {service}"],
    "svrename": ["svrename {service} --id {many}", "svrename {service} --id 2 --name other", "svrename --provider other {service} --only-label 3"],
    "compact": ["compact --window {few}", "compact --window {many} --stuffing", "compact --window {few} --only-label 3"],
    "rmorphan": ["rmorphan --window {few}", "rmorphan --window {many} --stuffing", "rmorphan --window {few} --only-label 3"],
    "restuff": ["restuff --from 1500000 --to 1400000", "restuff --from 13536000 --to 13000000 --window {many}",
                "restuff --from 2600000 --to 2600000 --window {few} --only-label 3", "restuff --from 3000 --to 1000 --window {few}"],
    "analyze": ["analyze", "analyze --only-label 3", "analyze --every {many}"],
    "info": ["info", "info --only-label 3", "info --json --every {many}"],
    "tables": ["tables", "tables --pid {source} --tid 0-2"],
}

# Files of tables for `inject`.
TABLES = [programs.TOP / "examples" / name for name in ("pat.json", "cat.json", "sdt.json")]

# What is drawn for the threads of a run.
THREADS = ["", "", "--threads auto", "--threads 1"]

# What may be asked of the report and of the exit number.
ENDS = ["--bare", "--endless", "--fail-on-faults", "--live"]

# What draws the same of each kind of size.
BUFFERS = ["--buffer-packets 1", "--buffer-packets 2", "--buffer-packets {few}", "--buffer-packets {many}", ""]
BATCHES = ["--max-flushed-packets 1", "--max-flushed-packets {few}", "--max-input-packets {few}", ""]


def filled(draw, words, tables=None):
    """The words, with their numbers drawn, and the files of tables from these."""
    numbers = {"few": draw.randint(1, 40), "many": draw.randint(1, 4000), "pid": draw.choice([0, 17, 256, 257, 8191]),
               "source": draw.choice([0, 17, 256, 257]), "service": draw.choice([1, 257, 769, 770, 20000]),
               "table": draw.choice(tables or TABLES)}
    return words.format(**numbers)


def known_plugins(program):
    """The plugins that a program knows; the others are named."""
    known = []
    for name, forms in PLUGINS.items():
        words = ["-P", *filled(random.Random(1), forms[0]).split()]
        done = subprocess.run([program, *words, "-I", "null", "0", "-O", "drop"], capture_output=True, check=False)
        if done.returncode:
            print(f"{name}: left out, since the program does not know it")
        else:
            known.append(name)
    return known


def chain_of(draw, known, tables=None):
    """A chain of up to nine plugins, or ten where one comes twice, and each known one in most of the long ones."""
    names = draw.sample(known, min(len(known), draw.randint(0, 9)))
    if draw.random() < 0.3:
        names.insert(draw.randrange(len(names) + 1), draw.choice(known))
    words = filled(draw, draw.choice(GENERAL), tables)
    return words + "".join(" -P " + filled(draw, draw.choice(PLUGINS[name]), tables) for name in names)


def sizes_of(draw):
    """Sizes of the buffer and of the batches."""
    return filled(draw, draw.choice(BUFFERS)) + " " + filled(draw, draw.choice(BATCHES))


def ends_of(draw):
    """What is asked of the report and of the exit number."""
    return " ".join(option for option in ENDS if draw.random() < 0.3)


def threads_of(draw):
    """Whether one thread is asked for."""
    return draw.choice(THREADS)
