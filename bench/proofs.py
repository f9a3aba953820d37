"""Times the proofs of crates for proofs.sh, in the folder of its first argument."""

import bisect
import os
import re
import shutil
import subprocess
import sys
import tempfile
import time
from collections import Counter
from pathlib import Path

TICKS = os.sysconf("SC_CLK_TCK")


def crates_from_the_bottom_up(text):
    """The names in a crates.txt, each behind those that it uses."""
    uses = dict(re.findall(r"^(\w+):(.*)$", text, re.MULTILINE))
    ordered = []

    def put(name):
        if name in uses and name not in ordered:
            for below in uses[name].split():
                put(below)
            ordered.append(name)

    for name in uses:
        put(name)
    return ordered


def processor_seconds(session):
    """The processor time of all processes of a session, with that of their children that have ended."""
    ticks = 0
    for stat in Path("/proc").glob("[0-9]*/stat"):
        try:
            fields = stat.read_text().rpartition(")")[2].split()
        except OSError:
            continue
        if int(fields[3]) == session:
            ticks += sum(int(field) for field in fields[11:15])
    return ticks / TICKS


# What rattle keeps of a function stands in modules of these names below its own.
OF_A_FUNCTION = re.compile(
    r"\.(?:Statement|Met|Symbol|Key|Kinds|Proof|Code|Named|Goals|Given|Answers|Invariants|Laws|Lts|Tie|TheLinks?|Reads|Layout|Carried|Instances)\b"
)


def part_of(crate, file):
    """The function of whose proof this file is a part; "" for types, definitions and lemmas."""
    if not file.startswith(f"Rattle-{crate}-proofs."):
        return ""
    name = file.removeprefix(f"Rattle-{crate}-proofs.").removesuffix(".oantt")
    function = OF_A_FUNCTION.split(name, maxsplit=1)[0]
    return function if function != name and re.fullmatch(r"[+a-z_][\w+]*", function.rpartition(".")[2]) else ""


def at_time(polls, moment):
    """The processor time that was spent at a moment, between those at which it was read."""
    later = bisect.bisect_right([time for time, _ in polls], moment)
    if later == len(polls):
        return polls[-1][1]
    (start, spent), (end, more) = polls[later - 1], polls[later]
    return spent + (more - spent) * (moment - start) / (end - start)


def check(crate, folder, *options):
    """The processor time of a crate's check at one job, and how much of it belongs to each part: what was spent until a
    file of the part was written, since the file before that."""
    parts, polls, last = Counter(), [(time.time(), 0.0)], 0.0
    with tempfile.TemporaryFile("w+") as log:
        process = subprocess.Popen(["rt", "check", "--jobs", "1", *options], cwd=folder, start_new_session=True, stdout=log, stderr=log)
        while process.poll() is None:
            time.sleep(0.2)
            polls.append((time.time(), max(processor_seconds(process.pid), polls[-1][1])))
        if process.returncode:
            log.seek(0)
            raise SystemExit(f"{crate} is not proved:\n{log.read()[-2000:]}")
    for moment, name in sorted((file.stat().st_mtime, file.name) for file in folder.glob("out/incremental/*/*.oantt")):
        spent = at_time(polls, moment)
        parts[part_of(crate, name)] += spent - last
        last = spent
    return polls[-1][1], parts


def check_with_tests(crate, folder):
    """The same for the second proof, which has the tests; nothing of the first counts in it."""
    first, second = folder / "out.first", folder / "out"
    second.rename(first)
    try:
        return check(crate, folder, "--test")
    finally:
        shutil.rmtree(second, ignore_errors=True)
        first.rename(second)


def prove_below(work, crate):
    for below in crates_below(work, crate):
        subprocess.run(["rt", "lib"], cwd=work / "crates" / below, check=True, stdout=subprocess.DEVNULL, stderr=subprocess.DEVNULL)


def has_tests(folder):
    return any("#[test]" in file.read_text() for file in folder.glob("src/**/*.rt"))


def tell_tests(work, crate):
    """Prints what each function costs in the proof of a crate with its tests, from the slowest down to a second."""
    prove_below(work, crate)
    taken, parts = check(crate, work / "crates" / crate, "--test")
    print(f"| `{crate}` with its tests | {taken:.0f} |\n|---|---|")
    for function, seconds in parts.most_common():
        if seconds >= 1:
            print(f"| {f'`{function.replace(chr(46), chr(58) * 2)}`' if function else 'all else'} | {seconds:.0f} |")
    print(flush=True)


def main():
    work, names = Path(sys.argv[1]), sys.argv[2:]
    if names[:1] == ["--tests"]:
        for crate in names[1:]:
            tell_tests(work, crate)
        return
    print("| Crate | Seconds | Again, with its tests | The slowest function | Seconds |\n|---|---|---|---|---|")
    for crate in crates_from_the_bottom_up((work / "crates.txt").read_text()):
        if names and crate not in names:
            continue
        folder = work / "crates" / crate
        prove_below(work, crate)
        taken, parts = check(crate, folder)
        again = ""
        if has_tests(folder):
            again, parts = check_with_tests(crate, folder)
            again = f"{again:.0f}"
        del parts[""]
        slowest, seconds = parts.most_common(1)[0] if parts else ("", 0)
        print(f"| `{crate}` | {taken:.0f} | {again} | `{slowest.replace('.', '::')}` | {seconds:.0f} |", flush=True)


def crates_below(work, crate):
    ordered = crates_from_the_bottom_up((work / "crates.txt").read_text())
    uses = dict(re.findall(r"^(\w+):(.*)$", (work / "crates.txt").read_text(), re.MULTILINE))
    below = set()

    def put(name):
        for used in uses.get(name, "").split():
            if used in uses and used not in below:
                below.add(used)
                put(used)

    put(crate)
    return [name for name in ordered if name in below]


main()
