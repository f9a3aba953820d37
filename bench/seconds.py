"""Times commands for the scripts beside it: the least of some runs, in seconds of processor time, which other
work on the machine changes little."""

import os
import shutil
import subprocess
import time


def seconds(*words, runs=3, statuses=(0,), most=None):
    """The least time of the runs of this command, which must end with one of the statuses. None where a
    run takes more than so many seconds."""
    best = None
    for _ in range(runs):
        taken = one_run(words, statuses, most)
        if taken is None:
            return None
        best = taken if best is None else min(best, taken)
    return best


def peak_mebibytes(*words, statuses=(0,)):
    """The most memory that a run of this command holds at once, in MiB."""
    process = subprocess.Popen(words, stdout=subprocess.DEVNULL, stderr=subprocess.DEVNULL)
    _, status, usage = os.wait4(process.pid, 0)
    process.returncode = os.waitstatus_to_exitcode(status)
    if process.returncode not in statuses:
        raise SystemExit(f"{' '.join(words)[:200]}: status {process.returncode}")
    return usage.ru_maxrss / 1024


def peak_by_time(*words):
    """The same, as GNU time tells it: of a process that holds much itself, `wait4` tells no less for those that it starts."""
    time_program = shutil.which("time")
    if time_program is None:
        return "unknown memory (there is no GNU time here)"
    told = subprocess.run([time_program, "-f", "%M", *words], capture_output=True, text=True, check=True)
    return f"{int(told.stderr) // 1024} MiB at most"


def one_run(words, statuses, most):
    process = subprocess.Popen(words, stdout=subprocess.DEVNULL, stderr=subprocess.DEVNULL)
    last = None if most is None else time.monotonic() + most
    while True:
        ended, status, usage = os.wait4(process.pid, 0 if last is None else os.WNOHANG)
        if ended:
            break
        if time.monotonic() > last:
            process.kill()
            process.wait()
            return None
        time.sleep(0.01)
    process.returncode = os.waitstatus_to_exitcode(status)
    if process.returncode not in statuses:
        raise SystemExit(f"{' '.join(words)[:200]}: status {process.returncode}")
    return usage.ru_utime + usage.ru_stime


def ratio(whole, half):
    """How many times as long the first took; both at least a millisecond, below which a clock says little."""
    return max(whole, 0.001) / max(half, 0.001)
