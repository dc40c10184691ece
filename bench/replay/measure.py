#!/usr/bin/env python3
"""Times the replay of scripts that `scripts.py` beside this file makes.

Reads: 10,000 and 100,000 events, most of them reads of pages; events a second, the ratio of the time per event between the
two sizes, and the peak memory of each run.
Publications: lines `new`, `copy` and `drop`, over 3 databases with 1,000 and with 10,000 versions and over 300 with 1,000;
the time per event, and for 3 databases its ratio between the two sizes.
Mixes: lines of every kind by 16 clients, over 3 names of databases and over 1,000, with 10,000 and with 100,000 events;
events a second, peak memory, and the ratio of the times.
Commits: a script of 64 MiB of commits of one page each; its seconds.
The time that a run takes without an event is taken off each time.

Run at the top of the repository, after `rt ci` or `./run --proved bcvutil --help` has built the program:
    python3 bench/replay/measure.py [PROGRAM [PART ..]]
where a part is reads, publications, mixes or commits, and all are run where none is named. It ends with status 1 where the
time per event grows by half or more over reads or 3 databases, where ten times the events of a mix over 3 take more than twelve
times as long, or where the commits take more than a minute. Where the start takes half of a run or more, its figures are below
the noise, and it says so in their place."""
import os, subprocess, sys, tempfile, time
import scripts

BUILT = os.path.join(os.path.dirname(os.path.abspath(__file__)), "../../crates/bcvutil/out/bcvutil")
PROGRAM = sys.argv[1] if len(sys.argv) > 1 else BUILT
# What one run takes varies by a tenth or more; the best of so many counts. One run is enough where it is long.
RUNS = 5
LONG = 2.0


def run_of(text, count):
    """The time of a run, which must answer each event, and what was answered."""
    start = time.perf_counter()
    child = subprocess.Popen([PROGRAM, "-", "-", "replay"], stdin=subprocess.PIPE, stdout=subprocess.PIPE)
    out, _ = child.communicate(text.encode())
    seconds = time.perf_counter() - start
    if child.returncode != 0 or out.count(b"\n") != count:
        sys.exit("the replay ended with status %d after %d replies of %d" % (child.returncode, out.count(b"\n"), count))
    return seconds, out


def seconds_of(text, count):
    """The shortest time of a run, and what was answered."""
    best, out = run_of(text, count)
    for _ in range(RUNS - 1):
        if best > LONG:
            break
        best = min(best, run_of(text, count)[0])
    return best, out


def start_up():
    """The shortest time of a run that applies no event."""
    return seconds_of("world 1 4096 512 100 2\n", 0)[0]


def above_start(whole, start, what):
    """The seconds of a run without those of its start, or none where the start is most of them: that says nothing."""
    if whole < 2 * start:
        print("%s: below the noise (%.1f ms, of which the start is %.1f ms)" % (what, 1e3 * whole, 1e3 * start))
        return None
    return whole - start


def peak(text, out):
    """The peak memory of one run, in KiB, as the system tells it of the program once it has answered all lines."""
    with tempfile.TemporaryFile() as answers:
        child = subprocess.Popen([PROGRAM, "-", "-", "replay"], stdin=subprocess.PIPE, stdout=answers)
        child.stdin.write(text.encode())
        child.stdin.flush()
        while os.fstat(answers.fileno()).st_size < len(out):
            time.sleep(0.001)
        with open("/proc/%d/status" % child.pid) as status:
            most = next(int(line.split()[1]) for line in status if line.startswith("VmHWM:"))
        child.stdin.close()
        child.wait()
    return most


def pair_of(start, what, small, large):
    """The times per event of two scripts, the larger one over the smaller one, or none where they are below the noise."""
    per = []
    for text, count in (small, large):
        whole, out = seconds_of(text, count)
        seconds = above_start(whole, start, "%s, %7d events" % (what, count))
        if seconds is None:
            return None
        per.append(seconds / count)
        print("%s, %7d events: %9.0f events a second, %6d versions, peak memory %d KiB"
              % (what, count, count / seconds, out.count(b"\n+") + out.startswith(b"+"), peak(text, out)))
    print("%s: time per event, large to small: %.2f" % (what, per[1] / per[0]))
    return per[1] / per[0]


def measure_reads(start):
    ratio = pair_of(start, "reads", scripts.reads(10_000), scripts.reads(100_000))
    return ratio is None or ratio < 1.5


def measure_publications(start):
    pair_of(start, "publications over 300 databases", scripts.publications(300, 300), scripts.publications(300, 1_000))
    ratio = pair_of(start, "publications over 3 databases", scripts.publications(3, 1_000), scripts.publications(3, 10_000))
    return ratio is None or ratio < 1.5


def measure_mixes(start):
    ratio = pair_of(start, "mix of 16 clients over 3 names", scripts.mix(16, 3, 10_000), scripts.mix(16, 3, 100_000))
    pair_of(start, "mix of 16 clients over 1,000 names", scripts.mix(16, 1_000, 10_000), scripts.mix(16, 1_000, 100_000))
    return ratio is None or ratio <= 1.2


def measure_commits(start):
    text, count = scripts.commits(64 * 1024 * 1024 - 2048)
    seconds, out = run_of(text, count)
    print("%d commits in %.1f MiB: %.2f seconds, peak memory %d KiB" % (out.count(b"\nok"), len(text) / 2 ** 20, seconds - start, peak(text, out)))
    return seconds - start <= 60


PARTS = {"reads": measure_reads, "publications": measure_publications, "mixes": measure_mixes, "commits": measure_commits}

if __name__ == "__main__":
    start = start_up()
    print("start-up, which is taken off: %.1f milliseconds" % (1e3 * start))
    held = [PARTS[part](start) for part in sys.argv[2:] or PARTS]
    sys.exit(0 if all(held) else 1)
