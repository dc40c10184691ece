"""The reader and the publisher of tests/daemon-reader."""
import contextlib, os, random, shutil, sqlite3, struct, subprocess, sys, threading
from reader import Daemon, Ended, Reader, Refused, begin, end, hold, poll, read

PAGE = 4096
ROUNDS = 12


def publish(program, work, done):
    """Publishes a version for each round, and keeps a copy of its file under its number."""

    def util(*words, given=b""):
        said = subprocess.run([program, f"{work}/store", f"{work}/publisher", *words], input=given, capture_output=True)
        assert said.returncode == 0, (words, said)
        return said.stdout.decode()

    file = f"{work}/now.db"
    try:
        for round in range(1, ROUNDS + 1):
            with open(file, "rb") as it:
                old = it.read()
            with contextlib.closing(sqlite3.connect(file)) as base:
                base.execute("update item set round = ?", [round])
                base.execute("insert into item select hex(randomblob(60)), ? from item limit 200", [round])
                base.commit()
            with open(file, "rb") as it:
                new = it.read()
            pages = [(at // PAGE + 1, new[at : at + PAGE]) for at in range(0, len(new), PAGE)]
            pairs = [f"{number}={page.hex()}" for number, page in pages if page != old[(number - 1) * PAGE : number * PAGE]]
            util("commit", "shop", str(len(pages)), given="\n".join(pairs).encode())
            shutil.copy(file, f"{work}/versions/new")
            number = util("upload", "shop").removeprefix("done ").strip()
            os.rename(f"{work}/versions/new", f"{work}/versions/{number}")
    finally:
        done.set()


class Transaction:
    """A session with a transaction, which reads its file piece by piece."""

    def __init__(self, reader, session):
        self.reader, self.session, self.bytes = reader, session, bytearray()
        reader.ask(poll(session))
        self.number, size, pages = struct.unpack(">QII", reader.ask(begin(session, b"shop")))
        self.length = size * pages
        reader.ask(hold(session, 1))

    def goes_on(self, length):
        """Whether there is more to read after the next piece."""
        self.bytes += self.reader.ask(read(self.session, len(self.bytes), length))
        return len(self.bytes) < self.length

    def ends(self):
        self.reader.ask(end(self.session))
        return self.number, bytes(self.bytes)


def whole(number, found, work):
    """What was found is that version's file, and SQLite finds one round's rows in them."""
    file = f"{work}/read.db"
    with open(file, "wb") as it:
        it.write(found)
    with open(f"{work}/versions/{number}", "rb") as it:
        assert it.read() == found, f"version {number} reads other bytes"
    with contextlib.closing(sqlite3.connect(file)) as base:
        assert base.execute("pragma integrity_check").fetchall() == [("ok",)]
        assert len(base.execute("select distinct round from item").fetchall()) == 1, number


def little_memory(daemon, work, file):
    """Where memory runs out for a read its connection ends without an answer, and the next one is served."""
    ended = 0
    for mebibytes in [8, 12, 20, 28, 40, 128]:
        with Daemon(daemon, f"{work}/store", f"{work}/daemon", mebibytes << 20) as served:
            for length in [16_777_216, 4096]:
                reader = Reader(served.address)
                reader.ask(poll())
                reader.ask(begin(1, b"shop"))
                try:
                    assert reader.ask(read(1, 0, length)) == file[:length], f"{length} bytes in {mebibytes} MiB"
                except Ended:
                    assert length > 4096 and mebibytes < 128, f"no {length} bytes in {mebibytes} MiB"
                    ended += 1
                reader.close()
    assert ended > 0, "memory never ran out"


def main(daemon, work, program):
    done, drawn, found = threading.Event(), random.Random(5), {}
    with Daemon(daemon, f"{work}/store", f"{work}/daemon") as served:
        publisher = threading.Thread(target=publish, args=(program, work, done))
        publisher.start()
        reader = Reader(served.address)
        transactions, session = [], 0
        while transactions or not done.is_set():
            # Five transactions at a time, begun at different versions and read in turns.
            while len(transactions) < 5 and not done.is_set():
                session += 1
                transactions.append(Transaction(reader, session))
            transaction = drawn.choice(transactions)
            if not transaction.goes_on(drawn.choice([1, 100, 4096, 65_537, 300_000])):
                transactions.remove(transaction)
                number, read_bytes = transaction.ends()
                assert found.setdefault(number, read_bytes) == read_bytes, f"two readings of version {number}"
        last = Transaction(reader, 0)
        while last.goes_on(16_777_216):
            pass
        found.update([last.ends()])
        publisher.join()
        try:
            reader.ask(read(1, 0, 1))
            raise AssertionError("a session that has ended reads")
        except Refused as refused:
            assert str(refused) == "no-txn", refused
    versions = {int(name) for name in os.listdir(f"{work}/versions")}
    assert len(versions) == ROUNDS + 1 and max(versions) in found, (versions, found.keys())
    for number, read_bytes in found.items():
        whole(number, read_bytes, work)
    assert len(found) > 3, f"only versions {sorted(found)} were read"
    little_memory(daemon, work, found[max(versions)])


try:
    main(*sys.argv[1:])
except (AssertionError, Ended, OSError, Refused) as fault:
    raise SystemExit(f"daemon-reader: {fault!r}") from fault
