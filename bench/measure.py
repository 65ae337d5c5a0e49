"""Runs this program and TetGen on one file in turn: the least of their processor times, and their peaks of memory."""
import os
import resource
import shutil
import subprocess
import sys

TOP = os.path.dirname(os.path.dirname(os.path.abspath(__file__)))
PROGRAM = os.path.join(TOP, "crates", "tetgen", "out", "tetgen")
PEER = shutil.which("tetgen", path="/usr/bin:/usr/local/bin")
# A process counts the memory of the one that it was forked from as its own, so peaks are measured below this small launcher.
LAUNCHER = "/usr/bin/time"
# The most processor seconds of one run.
MOST = 60
HEAD = "| input | switches | ms | TetGen's ms | ratio | MB | TetGen's MB | ratio |\n|---|---|---|---|---|---|---|---|"


def start(words):
    """The status, from 0, and what the system says of the resources of one run."""
    child = subprocess.Popen(words, stdout=subprocess.DEVNULL, stderr=subprocess.DEVNULL)
    resource.prlimit(child.pid, resource.RLIMIT_CPU, (MOST, MOST))
    _, status, usage = os.wait4(child.pid, 0)
    child.returncode = os.waitstatus_to_exitcode(status)
    return child.returncode, usage


def seconds(words):
    """The status and the processor seconds of one run, of user and system together."""
    status, usage = start(words)
    return status, usage.ru_utime + usage.ru_stime


def megabytes(words, folder):
    """The peak of memory of one run."""
    if not os.path.exists(LAUNCHER):
        return start(words)[1].ru_maxrss / 1024
    said = os.path.join(folder, "peak")
    start([LAUNCHER, "-q", "-o", said, "-f", "%M", *words])
    with open(said) as file:
        return int(file.read().split()[-1]) / 1024


def ratio(ours, theirs):
    return f"{ours / theirs:.2f}" if ours is not None and theirs else ""


def row(name, switches, path, count, own=None):
    """A line of the table: the least of so many runs each. A run that ends with another status than 0 has that in place of its time. This program gets
    the words `own` where they are given, and the switches and the path as TetGen does where they are not."""
    programs = [it for it in (PROGRAM, PEER) if it is not None and os.path.exists(it)]
    words = {PEER: [switches, path], PROGRAM: own or [switches, path]}
    least, failed, peak = {}, {}, {}
    for _ in range(count):
        for program in programs:
            if program in failed:
                continue
            status, time = seconds([program, *words[program]])
            if status != 0:
                failed[program] = f"status {status}" if status > 0 else f"signal {-status}"
            least[program] = min(time, least.get(program, time))
    for program in programs:
        if program not in failed:
            peak[program] = megabytes([program, *words[program]], os.path.dirname(path))
    times = [failed.get(it, f"{least[it] * 1000:.0f}" if it in least else "") for it in (PROGRAM, PEER)]
    whole = PROGRAM in peak and PEER in peak
    fields = [name, f"`{switches}`", *times, ratio(least[PROGRAM], least[PEER]) if whole else ""]
    fields += [f"{peak[it]:.1f}" if it in peak else "" for it in (PROGRAM, PEER)]
    fields.append(ratio(peak[PROGRAM], peak[PEER]) if whole else "")
    return "| " + " | ".join(fields) + " |"


def check_programs():
    """Says which of the programs there are; ends where there is none."""
    if not os.path.exists(PROGRAM):
        print("this program is not built (./tetgen --build builds it): its columns are empty", file=sys.stderr)
    if PEER is None:
        print("tetgen is not installed (apt-get install tetgen): no ratios", file=sys.stderr)
    if not os.path.exists(LAUNCHER):
        print(f"{LAUNCHER} is missing (apt-get install time): a peak below that of this script shows as the script's", file=sys.stderr)
    if not os.path.exists(PROGRAM) and PEER is None:
        sys.exit("neither program is there")
