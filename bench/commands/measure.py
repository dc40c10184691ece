#!/usr/bin/env python3
"""Times the commands over folders, each beside what the system takes for the same bytes; see README.md beside this file.

Run at the top of the repository, after `rt ci` or `./run --proved bcvutil --version` has built the program:
    python3 bench/commands/measure.py [PROGRAM]
TMPDIR names the file system that is measured. It ends with status 1 where a ratio is above its bound."""
import os, shutil, sqlite3, subprocess, sys, tempfile, time

BUILT = os.path.join(os.path.dirname(os.path.abspath(__file__)), "../../crates/bcvutil/out/bcvutil")
PROGRAM = os.path.abspath(sys.argv[1] if len(sys.argv) > 1 else BUILT)
MIB = 1 << 20
SIZE = 78 * MIB
PAGE = 4096
RANGE = 16 * MIB
# What one run takes varies; the best of so many counts.
RUNS = 3
failed = False


def database(path):
    """Makes a SQLite file of 78 MiB, and fills the last page up to the byte."""
    made = sqlite3.connect(path)
    made.execute("pragma page_size=%d" % PAGE)
    made.execute("create table item(name, bytes)")
    count = 0
    while os.path.getsize(path) < SIZE:
        made.executemany("insert into item values (?, randomblob(3900))", (("tea %d" % k,) for k in range(count, count + 500)))
        made.commit()
        count += 500
    made.close()


def util(folder, *words, given=None, into=subprocess.DEVNULL):
    """Runs a command over the folders `store` and `client`, which must be done."""
    store, client = os.path.join(folder, "store"), os.path.join(folder, "client")
    source = open(given, "rb") if given else subprocess.DEVNULL
    subprocess.run([PROGRAM, store, client, *words], stdin=source, stdout=into, check=True)


def fresh(top, block):
    """A folder with an empty container."""
    folder = tempfile.mkdtemp(dir=top)
    for name in ("store", "client"):
        os.mkdir(os.path.join(folder, name))
    util(folder, "create", str(block), "86400")
    return folder


def timed(work):
    start = time.perf_counter()
    work()
    return time.perf_counter() - start


def best(make, work):
    """The shortest time of the work over what was made for it anew, and the last thing that was made."""
    shortest = None
    for _ in range(RUNS):
        made = make()
        seconds = timed(lambda: work(made))
        shortest = seconds if shortest is None else min(shortest, seconds)
    return shortest, made


def copied(source, top):
    """`cp` of the file, and a sync of the copy."""
    target = os.path.join(top, "copy")
    subprocess.run(["cp", source, target], check=True)
    subprocess.run(["sync", target], check=True)


def files_written(source, top, block):
    """As many files as the source has blocks: each is written under a draft's name, renamed and synced; then the folder is."""
    folder = tempfile.mkdtemp(dir=top)
    with open(source, "rb") as bytes_of:
        count = 0
        while part := bytes_of.read(block):
            draft = os.path.join(folder, "draft")
            target = os.open(draft, os.O_WRONLY | os.O_CREAT)
            os.write(target, part.ljust(block, b"\0"))
            os.rename(draft, os.path.join(folder, "%d" % count))
            os.fsync(target)
            os.close(target)
            count += 1
    names = os.open(folder, os.O_RDONLY)
    os.fsync(names)
    os.close(names)
    shutil.rmtree(folder)


def told(what, seconds, beside, bound):
    global failed
    ratio = seconds / beside
    failed |= ratio > bound
    print("%-52s %8.1f ms  beside %8.1f ms  ratio %5.2f, at most %.1f" % (what, 1e3 * seconds, 1e3 * beside, ratio, bound))


def pairs(folder, pages):
    """The input of a commit that changes 20 pages, far from one another."""
    path = os.path.join(folder, "pairs")
    with open(path, "w") as lines:
        for k in range(20):
            lines.write("%d=%s\n" % (2 + k * ((pages - 2) // 20), "%02x" % (k + 1) * PAGE))
    return path


def main():
    with tempfile.TemporaryDirectory() as top:
        source = os.path.join(top, "shop.db")
        database(source)
        size = os.path.getsize(source)
        pages = size // PAGE
        os.sync()
        copy, _ = best(lambda: None, lambda _: copied(source, top))
        publish, _ = best(lambda: fresh(top, 4 * MIB), lambda made: util(made, "new", "shop", given=source))
        told("new, 78 MiB in blocks of 4 MiB, beside cp and sync", publish, copy, 2.5)
        loop, _ = best(lambda: None, lambda _: files_written(source, top, 65536))
        publish, made = best(lambda: fresh(top, 65536), lambda made: util(made, "new", "shop", given=source))
        told("new, in blocks of 64 KiB, beside as many files", publish, loop, 1.2)
        changed = pairs(made, pages)

        def upload(_):
            util(made, "commit", "shop", str(pages), given=changed)
            util(made, "upload", "shop")

        change, _ = best(lambda: None, upload)
        told("commit of 20 pages and upload, beside that new", change, publish, 0.1)
        back = os.path.join(top, "back")

        def read(_):
            with open(back, "wb") as into:
                for place in range(0, size, RANGE):
                    util(made, "read", "shop", str(place), str(RANGE), into=into)

        reading, _ = best(lambda: None, read)
        if os.path.getsize(back) != size:
            sys.exit("what was read back has %d bytes of %d" % (os.path.getsize(back), size))
        told("read in ranges of 16 MiB, beside cp and sync", reading, copy, 3)
        many = fresh(top, 4096)
        one = os.path.join(many, "one.db")
        with open(one, "wb") as page:
            page.write(b"SQLite format 3\0" + b"\x10\x00" + bytes(PAGE - 18))
        util(many, "new", "db0", given=one)
        for k in range(1, 1000):
            util(many, "copy", "db0", "db%d" % k)
        start, _ = best(lambda: None, lambda _: subprocess.run([PROGRAM, "--version"], stdout=subprocess.DEVNULL, check=True))
        listing, _ = best(lambda: None, lambda _: util(many, "list"))
        told("list of 1,000 databases, beside --version", listing, start, 5)
    sys.exit(1 if failed else 0)


if __name__ == "__main__":
    main()
