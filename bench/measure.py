# The measuring of bench/compare: messages OURS PLAIN [ROUNDS [MESSAGES]], or gateway OURS PLAIN [ROUNDS].
import os, re, shutil, statistics, subprocess, sys, tempfile, time

COUNTS = shutil.which("valgrind") is not None
CALLGRIND = ["valgrind", "--tool=callgrind"]


def head(unit, count):
    line = f"{'':<22}{'here ' + unit:>14}{'plain ' + unit:>14}{'times':>8}"
    print(line + (f"{'here ' + count:>14}{'plain ' + count:>14}{'times':>8}" if COUNTS else ""))


def row(name, here, plain, counts):
    line = f"{name:<22}{here:>14.1f}{plain:>14.1f}{here / plain:>8.2f}"
    if counts:
        line += f"{counts[0]:>14,.0f}{counts[1]:>14,.0f}{counts[0] / counts[1]:>8.2f}"
    print(line, flush=True)


# ---- A message: a line of input says which, and how often.

def answer(program, line, times):
    start = time.perf_counter()
    ran = subprocess.run([program], input=f"{line} {times}\n".encode(), capture_output=True, check=True)
    return time.perf_counter() - start, ran.stdout


# By the difference of two runs.
def message_instructions(program, line):
    counts = []
    for times in (10_000, 20_000):
        with tempfile.NamedTemporaryFile() as out:
            ran = subprocess.run(CALLGRIND + [f"--callgrind-out-file={out.name}", program],
                                 input=f"{line} {times}\n".encode(), capture_output=True, check=True)
        counts.append(int(ran.stderr.decode().split("Collected :")[1].split()[0]))
    return (counts[1] - counts[0]) / 10_000


def messages(programs, rounds=9, times=1_000_000):
    head("ns", "instr")
    lines = [f"{verb} {kind} {texts}" for verb in ("read", "write") for kind in ("order", "report")
             for texts in ("full", "short")]
    for line in lines:
        spent = ([], [])
        for _ in range(rounds):
            runs = [answer(program, line, times) for program in programs]
            for i, (seconds, _) in enumerate(runs):
                spent[i].append(seconds / times * 1e9)
            if runs[0][1] != runs[1][1]:
                sys.exit(f"{line}: the two programs differ")
        counts = [message_instructions(program, line) for program in programs] if COUNTS else None
        row(line, *map(statistics.median, spent), counts)


# ---- A day of a gateway: each program plays them all, and names each in front of every line of its account.

# What each day's account says, and how long a call of it took, in nanoseconds.
def days(program):
    ran = subprocess.run([program], capture_output=True, check=True, text=True)
    accounts = {}
    for line in ran.stdout.splitlines():
        accounts.setdefault(line.split(":")[0], []).append(line)
    rates = re.findall(r"^(.*): (\d+) calls a second over the day$", ran.stderr, re.M)
    return accounts, {name: 1e9 / int(rate) for name, rate in rates}


# The instructions of each day, from the first line of its account, behind the logons, to the last: each line is one write,
# and callgrind cuts its counts at each of them.
def day_instructions(program):
    with tempfile.TemporaryDirectory() as work:
        out = os.path.join(work, "out")
        ran = subprocess.run(CALLGRIND + ["--dump-before=write", f"--callgrind-out-file={out}", program],
                             stdout=subprocess.PIPE, stderr=subprocess.STDOUT, check=True, text=True)
        names = [line.split(":")[0] for line in ran.stdout.splitlines() if not line.startswith("==")]
        parts = [open(f"{out}.{i + 1}").read() for i in range(len(names))]
        if os.path.exists(f"{out}.{len(names) + 2}"):
            sys.exit(f"{program}: its lines are not one write each")
    counts = [int(re.search(r"^totals: (\d+)", part, re.M).group(1)) for part in parts]
    first = {name: names.index(name) for name in names}
    return {name: sum(count for at, count in enumerate(counts) if names[at] == name and at > first[name])
            for name in first}


def gateway(programs, rounds=9):
    head("ns a call", "instr a day")
    runs = [[days(program) for program in programs] for _ in range(rounds)]
    (ours, _), (plain, _) = runs[0]
    counts = [day_instructions(program) for program in programs] if COUNTS else None
    for name in plain:
        if ours.get(name) != plain[name]:
            sys.exit(f"{name}: the two programs differ")
        spent = [statistics.median(run[i][1][name] for run in runs) for i in range(2)]
        row(name, *spent, [count[name] for count in counts] if counts else None)


what, ours, plain, *numbers = sys.argv[1:]
{"messages": messages, "gateway": gateway}[what]([ours, plain], *map(int, numbers))
