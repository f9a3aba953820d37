"""The parts of hostile.sh, which says what each does. Called in a folder that has the program, the files of an article
with a script of its edits, and in whole.txt what that script writes."""

import collections
import os
import random
import re
import resource
import signal
import subprocess
import sys
from concurrent.futures import ThreadPoolExecutor

from hostile_kinds import KINDS, LARGEST, largest_size
from seconds import ratio

STACK = 256 * 1024
MOST_SECONDS = 60
# For files as long as they may be: the processor time of a run, and its memory.
LARGEST_SECONDS = 600
LARGEST_MEMORY = 14 << 30
EDIT = ("edit", "article.xhtml", "house.css", "script.txt")
BOOK = ("book", "book.css", "contents.txt", "contents.xhtml", "hive.xhtml", "year.xhtml", "honey.xhtml")
HERE = os.path.dirname(os.path.abspath(__file__))

# The line on standard error of each status.
LINES = {
    0: rb"",
    1: rb"marker: out of memory\n",
    2: rb"marker: usage: [^\n]*\n",
    3: rb"marker: [^\n]*: read failed\n",
    4: rb"marker: [^\n]*: larger than 16777216 bytes\n",
    5: rb"marker: [^\n]*: not UTF-8 at \d+\n",
    6: rb"marker: [^\n]*:\d+:\d+: not well-formed\n",
    7: rb"marker: [^\n]*:\d+: bad line\n",
    8: rb"marker: write failed\n",
    10: rb"marker: [^\n]*:\d+:\d+: not well-formed\n",
}

Ended = collections.namedtuple("Ended", "status out err")
tried = 0
wrong = 0


def read(name):
    with open(name, "rb") as file:
        return file.read()


def put(name, parts):
    """Part by part: the peak of a run is never told as less than that of the process that starts it."""
    with open(name, "wb") as file:
        for part in parts:
            file.write(part if isinstance(part, bytes) else part.encode())


def bounds(seconds=MOST_SECONDS, memory=None):
    """Bounds a run: the system ends one that takes more processor time by SIGXCPU, and refuses it more memory."""
    def bound():
        resource.setrlimit(resource.RLIMIT_CPU, (seconds, seconds))
        if memory is not None:
            resource.setrlimit(resource.RLIMIT_AS, (memory, memory))
    return bound


def run(words, environment=None, memory=None, program="./program"):
    """Runs the program; memory is the most bytes that it may have, where that is bounded."""
    ended = subprocess.run(
        (program, *words), capture_output=True, preexec_fn=bounds(memory=memory), env={**os.environ, **(environment or {})},
        check=False,
    )
    return Ended(ended.returncode, ended.stdout, ended.stderr)


def tell(name, ended, fits):
    """Counts a run. It is wrong where it has no status with its line, or doesn't fit."""
    global tried, wrong
    tried += 1
    if ended.status in LINES and re.fullmatch(LINES[ended.status], ended.err) and fits:
        return
    wrong += 1
    status = ended.status
    if isinstance(status, int) and status < 0:
        status = signal.Signals(-status).name
    print(f"WRONG: {name}: status {status}, {ended.err[:200]!r}, {len(ended.out)} bytes of output", flush=True)


def beside(one, items):
    """What each item gives, in their order; on half of the processors some are done at a time."""
    with ThreadPoolExecutor(max(1, (os.cpu_count() or 2) // 2)) as pool:
        yield from pool.map(one, items)


def in_turn(jobs):
    """Does the jobs, some beside each other: each is a name, the words of a run, and what to ask of its end."""
    def one(job):
        name, ask, words, environment = job
        return name, ask, run(words, environment)

    for name, ask, ended in beside(one, jobs):
        tell(name, ended, ask(ended))


def utf8_fault(front):
    """Where the front stops being UTF-8; None where it is."""
    try:
        front.decode()
    except UnicodeDecodeError as error:
        return error.start
    return None


def front_files(name):
    """Each front of a file, in a file of its own."""
    whole = read(name)
    os.makedirs("cut", exist_ok=True)
    for length in range(len(whole) + 1):
        path = f"cut/{length}-{name}"
        put(path, [whole[:length]])
        yield path, whole[:length]


def fronts(_number):
    """A front of the document is none, one of the sheet is a sheet, and one of the script ends in its last line."""
    document = read("article.xhtml")
    end = document.rindex(b"</html>") + len(b"</html>")
    whole = run(("dump", "article.xhtml", "house.css")).out
    edited = read("whole.txt")

    def document_ask(front):
        def ask(ended):
            if utf8_fault(front) is not None:
                return ended.status == 5 and not ended.out
            if len(front) < end:
                return ended.status == 6 and not ended.out
            return ended.status == 0 and ended.out == whole
        return ask

    def sheet_ask(path, front):
        fault = utf8_fault(front)
        line = f"marker: {path}: not UTF-8 at {fault}\n".encode()
        return lambda ended: ended.status == 0 if fault is None else ended.status == 5 and ended.err == line

    def script_ask(path, front):
        line = front.count(b"\n") + (not front.endswith(b"\n"))

        def ask(ended):
            if ended.status == 7:
                return not ended.out and ended.err == f"marker: {path}:{line}: bad line\n".encode()
            same = os.path.commonprefix([ended.out, edited])
            rest = ended.out[len(same):].decode()
            return ended.status in (0, 3) and re.fullmatch(rf"(refused {line} [a-z-]+\n)?", rest) is not None
        return ask

    jobs = [(path, document_ask(front), ("dump", path, "house.css"), None) for path, front in front_files("article.xhtml")]
    jobs += [(path, sheet_ask(path, front), ("dump", "article.xhtml", path), None) for path, front in front_files("house.css")]
    jobs += [(path, script_ask(path, front), (*EDIT[:3], path), None) for path, front in front_files("script.txt")]
    in_turn(jobs)


def failing_library():
    """The library that makes calls fail. It is built where it isn't there yet."""
    path = os.path.abspath("failing.so")
    if not os.path.exists(path):
        subprocess.run(
            (os.environ.get("CC", "cc"), "-O2", "-shared", "-fPIC", "-o", path, os.path.join(HERE, "failing.c"), "-ldl"),
            check=True,
        )
    return path


def calls_of(words, environment=None):
    """How many requests for memory, reads and writes a run makes."""
    environment = {"LD_PRELOAD": failing_library(), "CALLS": os.path.abspath("calls"), **(environment or {})}
    run(words, environment)
    return [int(word) for word in read("calls").split()]


def failed_jobs(name, words, variable, numbers, status, whole):
    """The runs whose call of each number fails: what is written is then a front, and without a fault all."""
    def ask(ended):
        if ended.status == 0:
            return ended.out == whole
        return ended.status == status and whole.startswith(ended.out)

    return [
        (f"{name} {number}", ask, words, {"LD_PRELOAD": failing_library(), variable: str(number)}) for number in numbers
    ]


def long_run():
    """A script of 200 edits over a document of 1,000 elements."""
    put("long.xhtml", ["<body>", *(
        f'<section id="s{k}"><h2>{k}</h2><ol><li/><li/><li/></ol><p><a href="#s{k * 79 % 125}"/></p></section>'
        for k in range(125)
    ), "</body>"])
    put("long.css", [
        'body{counter-reset:s}section{counter-increment:s;counter-reset:i}li{counter-increment:i list-item}'
        'h2::before{content:counter(s)". "}li::before{content:counters(i,".")}'
        'a::after{content:"("target-counter(attr(href),s)")"}'
    ])
    draw = random.Random(1)
    lines = []
    for _ in range(200):
        place, other, item = draw.randrange(125), draw.randrange(125), draw.randrange(3)
        lines.append(draw.choice((
            f"insert /{place}/1 {item} <li/>\n", f"remove /{place}/1/{item}\n", f"move /{place} / {other}\n",
            f"set /{place}/1/{item} value {item}\n", f"set /{place} id s{other}\n", f"unset /{place}/1/{item} value\n",
        )))
    put("long.txt", [*lines, "show\n"])
    return "edit", "long.xhtml", "long.css", "long.txt"


def requests(number):
    """Every request for memory of the article's edits and of the book's, and some of a long script."""
    for name, words, whole in ("article", EDIT, read("whole.txt")), ("book", BOOK, read("contents.dump")):
        count, _, _ = calls_of(words)
        in_turn(failed_jobs(f"request of the {name}", words, "FAIL_REQUEST", range(1, count + 1), 1, whole))
        print(f"  {count} requests of the {name}'s edits")
    words = long_run()
    count, _, _ = calls_of(words)
    numbers = spread(number or 100, count)
    in_turn(failed_jobs("request of the long script", words, "FAIL_REQUEST", numbers, 1, run(words).out))
    print(f"  {len(numbers)} of {count} requests of the long script")


def spread(number, count):
    """So many of the numbers from 1 to the count, with the first and the last, as far from each other as can be."""
    number = min(number, count)
    return sorted({1 + place * (count - 1) // max(1, number - 1) for place in range(number)})


def tests_of(crate):
    """The tests of a crate. They are proved and built where they aren't there yet."""
    folder = os.path.join(os.path.dirname(HERE), "crates", crate)
    path = os.path.join(folder, "out", f"{crate}_tests")
    if not os.path.exists(path):
        subprocess.run(("rt", "test"), cwd=folder, stdout=subprocess.DEVNULL, check=True)
    return path


def again(number):
    """A test does edits, and one that is refused memory once more; in the end all is as without the refusal. It gives
    up where memory is refused before the edits or behind them."""
    global tried, wrong
    tests = tests_of("hostile_rows")
    test = ("refused::edits_refused_memory_are_done_again",)
    calls = {"LD_PRELOAD": failing_library(), "CALLS": os.path.abspath("calls")}
    assert run(test, calls, program=tests).status == 0, "the test fails by itself"
    count = int(read("calls").split()[0])
    ends = collections.Counter()
    numbers = spread(number or 100, count)

    def one(request):
        return request, run(test, {"LD_PRELOAD": failing_library(), "FAIL_REQUEST": str(request)}, program=tests)

    for request, ended in beside(one, numbers):
        tried += 1
        is_same = ended.status == 0 and ended.out.endswith(b"test result: ok\n")
        gives_up = ended.status == 101 and re.match(rb"error: (Memory|AllocError)\n", ended.err)
        ends["in an edit, which was then done" if is_same else "elsewhere"] += 1
        if not is_same and not gives_up:
            wrong += 1
            print(f"WRONG: request {request} of the test: status {ended.status}, {ended.err[:200]!r}", flush=True)
    print(f"  {len(numbers)} of {count} requests refused: " + ", ".join(f"{ends[name]} {name}" for name in sorted(ends)))


def devices(_number):
    """Every read and every write fails in turn, and then each moves a byte."""
    whole = read("whole.txt")
    for environment in ({}, {"TRICKLE": "1"}):
        _, reads, writes = calls_of(EDIT, environment)
        jobs = failed_jobs("read", EDIT, "FAIL_READ", range(1, reads + 1), 3, whole)
        jobs += failed_jobs("write", EDIT, "FAIL_WRITE", range(1, writes + 1), 8, whole)
        for job in jobs:
            job[3].update(environment)
        in_turn(jobs)
        print(f"  {reads} reads and {writes} writes of {environment.get('TRICKLE', 'any number of')} bytes")
    for most in ("1", "2", "7"):
        ended = run(EDIT, {"LD_PRELOAD": failing_library(), "TRICKLE": most})
        tell(f"{most} bytes at a time", ended, ended.status == 0 and ended.out == whole)


def limits(_number):
    """Runs of each kind of input with little memory: all is done, or memory is wanting; never a signal."""
    for kind in KINDS:
        write_files(kind, kind.size)
        for mebibytes in (4, 16, 64):
            ended = run(kind.words, memory=mebibytes << 20)
            whole = ended.status == kind.status and (kind.check is None or kind.check(kind.size, ended.out))
            tell(f"{kind.name} in {mebibytes} MiB", ended, whole or ended.status == 1)


GOOD = {
    "d.xhtml": (b'<body>\n<ol start="3"><li>a</li><li value="7">b<q>c&amp;</q></li></ol><p id="x" class="a b">d</p><a href="#x"/></body>'),
    "s.css": (
        b'@counter-style z{system:additive;additive-symbols:5 "v",1 "i";pad:3 "0"}ol{counter-reset:c reversed(d) 4}'
        b'li{counter-increment:c 2 d;list-style:z inside}li:nth-child(2n + 1)>q::before{content:open-quote counters(c,".",upper-roman)}'
        b'a[href^="#" i]::after{content:target-counter(attr(href),c)target-text(attr(href url),before)}/*x*/p:not(.c)::before{content:"\\61 "}'
    ),
    "t.txt": b'show\ninsert /0 1 <li value="2">e</li>\nmove /1 / 0\nset /1 start -3\nunset /2 id\nremove /0/9\nsheet s.css\nshow\n',
}


def turned_over(draw, good):
    """Some bytes are others: mostly such as stand in the file, so that it stays text."""
    spoilt = bytearray(good)
    for _ in range(draw.randrange(1, 9)):
        place = draw.randrange(len(spoilt))
        if draw.randrange(10):
            spoilt[place] = draw.choice(good)
        else:
            spoilt[place] = draw.choice((draw.randrange(256), spoilt[place] ^ 1 << draw.randrange(8)))
    return bytes(spoilt)


def spoilt_file(draw, name):
    """A good file, or bytes at random, or a good one that is cut and joined, or has some of its bytes turned over."""
    good = GOOD[name]
    kind = draw.randrange(8)
    if kind == 0:
        return bytes(draw.randrange(draw.choice((128, 256))) for _ in range(draw.randrange(200)))
    if kind == 1:
        other = GOOD[draw.choice(sorted(GOOD))]
        return good[:draw.randrange(len(good) + 1)] + other[draw.randrange(len(other) + 1):]
    if kind < 5:
        return turned_over(draw, good)
    return good


def broken(number):
    """Bytes that mean nothing, or something else."""
    ends = collections.Counter()

    def job(seed):
        draw = random.Random(seed)
        folder = f"broken/{seed}"
        os.makedirs(folder, exist_ok=True)
        paths = {}
        for name in GOOD:
            paths[name] = f"{folder}/{name}"
            put(paths[name], [spoilt_file(draw, name)])
        words = draw.choice((
            ("dump", paths["d.xhtml"], paths["s.css"]),
            ("edit", paths["d.xhtml"], paths["s.css"], paths["t.txt"]),
            ("table", paths["s.css"], "z", "-9", "30"),
            ("book", paths["s.css"], paths["t.txt"], paths["d.xhtml"]),
        ))

        def ask(ended):
            ends[ended.status] += 1
            for path in paths.values():
                os.remove(path)
            os.rmdir(folder)
            return True
        return f"broken bytes, seed {seed}", ask, words, None

    count = number or 2_000
    for start in range(0, count, 1_000):
        in_turn([job(seed) for seed in range(start, min(count, start + 1_000))])
    print("  " + ", ".join(f"status {status}: {ends[status]}" for status in sorted(ends, key=str)))


def write_files(kind, size):
    for name, parts in kind.files(size).items():
        put(name, parts)


def measured(words, bound):
    """A run with its output, its seconds of processor time, and the most memory that it held, in MiB."""
    with open("out", "wb") as out, open("err", "wb") as err:
        process = subprocess.Popen(("./program", *words), stdout=out, stderr=err, preexec_fn=bound)
        _, status, usage = os.wait4(process.pid, 0)
    process.returncode = os.waitstatus_to_exitcode(status)
    taken = usage.ru_utime + usage.ru_stime
    return Ended(process.returncode, read("out"), read("err")), taken, usage.ru_maxrss / 1024


def figure(kind, size, bound):
    """A kind of input at a size: the size in words, the processor time, and the memory."""
    write_files(kind, size)
    ended, taken, peak = measured(kind.words, bound)
    fits = ended.status == kind.status and (kind.check is None or kind.check(size, ended.out))
    tell(f"{kind.name}, {size}", ended, fits)
    if taken < 1:
        taken = min(taken, measured(kind.words, bound)[1])
    longest = max(os.path.getsize(name) for name in kind.files(0)) / (1 << 20)
    return f"{size} ({longest:.2f} MiB)", taken, peak


def is_more_than_linear(once, twice):
    (_, taken, peak), (_, taken_twice, peak_twice) = once, twice
    return (ratio(taken_twice, taken) > 3.3 and taken_twice > 0.1) or peak_twice > 2.5 * peak + 8


def grow(kind, sizes, bound):
    """A kind of input at a size and at twice that: what comes of it, and how much more time and memory it takes."""
    global wrong
    figures = [figure(kind, size, bound) for size in sizes]
    if kind.grows == "linear" and is_more_than_linear(*figures):
        # Other work on the machine can slow one of the runs: the least of two counts.
        later = [figure(kind, size, bound) for size in sizes]
        figures = [(size, min(taken, anew), peak) for (size, taken, peak), (_, anew, _) in zip(figures, later)]
    told = "; ".join(f"{size}: {taken:.3f} s, {peak:.0f} MiB" for size, taken, peak in figures)
    line = f"  {kind.name}: {told}; {ratio(figures[1][1], figures[0][1]):.1f} times as long"
    if kind.grows != "linear":
        line += f" ({kind.grows})"
    elif is_more_than_linear(*figures):
        line += "  WRONG: more than linear"
        wrong += 1
    print(line, flush=True)


def growth(_number):
    """Each kind of input at its size and at twice that."""
    for kind in KINDS:
        grow(kind, (kind.size, 2 * kind.size), bounds())


def largest(number):
    """Kinds whose cost is linear, with a file of half as many MiB and one of as many."""
    for kind in LARGEST:
        size = largest_size(kind, (number or 16) << 20)
        grow(kind, (size // 2, size), bounds(LARGEST_SECONDS, LARGEST_MEMORY))


PARTS = {
    "fronts": fronts, "requests": requests, "again": again, "devices": devices, "limits": limits, "broken": broken,
    "growth": growth, "largest": largest,
}


def main():
    _, hard = resource.getrlimit(resource.RLIMIT_STACK)
    resource.setrlimit(resource.RLIMIT_STACK, (STACK, hard))
    for word in sys.argv[1:] or PARTS:
        name, _, number = word.partition("=")
        before = tried, wrong
        PARTS[name](int(number or 0))
        print(f"{name}: {tried - before[0]} runs, {wrong - before[1]} wrong", flush=True)
    print(f"{tried} runs, {wrong} wrong")
    sys.exit(wrong > 0)


main()
