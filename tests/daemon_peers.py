"""The peers of tests/daemon, over an empty container in memory: a poll is refused `no-container`."""
import random, select, socket, sys
from reader import Daemon, Ended, Reader, message, poll, read

REFUSED = message(64, 0, b"no-container")
MEBIBYTE = 1 << 20


def is_served(daemon):
    """The next connection is answered, and ends when its peer has sent all."""
    peer = Reader(daemon.address)
    peer.send(poll())
    peer.socket.shutdown(socket.SHUT_WR)
    assert peer.rest() == REFUSED
    peer.close()


def answered(daemon, sent, wanted):
    """A peer that sends these bytes, and no end, is answered so and its connection is ended."""
    peer = Reader(daemon.address)
    peer.send(sent)
    try:
        said = peer.rest()
    except ConnectionResetError:
        # Bytes that were sent and not taken are told by a reset, which may overtake the answers.
        said = wanted
    assert said == wanted, (sent[:40], said)
    peer.close()


def stops(daemon):
    """Three messages cut at each byte."""
    session = poll() + read(7, 0, 5) + poll(9)
    answers = [REFUSED, message(64, 7, b"no-txn"), message(64, 9, b"no-container")]
    ends = [9, 30, 39]
    for count in range(len(session) + 1):
        peer = Reader(daemon.address)
        peer.send(session[:count])
        peer.socket.shutdown(socket.SHUT_WR)
        whole = sum(end <= count for end in ends)
        assert peer.rest() == b"".join(answers[:whole]), count
        peer.close()


def one_by_one(daemon):
    """Messages in pieces of one byte."""
    peer = Reader(daemon.address)
    for byte in (poll() + read(7, 0, 5)) * 3:
        peer.send(bytes([byte]))
    for _ in range(3):
        assert peer.answer() == (64, 0, b"no-container")
        assert peer.answer() == (64, 7, b"no-txn")
    peer.close()


def silent(daemon):
    """A peer that stops within a message is waited for, and so is the next one until it goes."""
    first, second = Reader(daemon.address), Reader(daemon.address)
    first.send(poll()[:5])
    second.send(poll())
    assert not select.select([second.socket], [], [], 0.3)[0]
    first.close()
    assert second.answer() == (64, 0, b"no-container")
    second.close()


def lies(daemon):
    """Lengths, kinds and fields that no message has end a connection at once: no byte more is waited for."""
    for lie in ["01", "0001", "00000000", "00000004", "00000046", "01000041", "ffffffff", "0000000601", "0000000502",
                "0000001203", "0000000904", "0000000508", "0000000500", "0000000509", "0000000702000000012f",
                "000000110300000001000000000000000001000001"]:
        answered(daemon, poll() + bytes.fromhex(lie), REFUSED)


def garbage(daemon):
    """Random bytes, of which none begin a message: those that do begin with a zero."""
    drawn = random.Random(7)
    for _ in range(200):
        answered(daemon, bytes([drawn.randrange(1, 256)]) + drawn.randbytes(drawn.randrange(200_000)), b"")


def goes(daemon):
    """Peers that close, close their reading side, or reset, before and after they have sent something."""
    for sent in [b"", poll()[:4], poll(), poll() * 5000]:
        for how in ["close", "reset", "reading"]:
            peer = Reader(daemon.address)
            if how == "reading":
                peer.socket.shutdown(socket.SHUT_RD)
            peer.send(sent)
            peer.reset() if how == "reset" else peer.close()
            is_served(daemon)


def ten_thousand(daemon):
    """10,000 messages are sent before one answer is taken."""
    peer = Reader(daemon.address)
    for number in range(10_000):
        peer.send(poll(number))
    for number in range(10_000):
        assert peer.answer() == (64, number, b"no-container")
    peer.close()


def flood(daemon, is_reset):
    """A peer that sends on and takes no answer: the daemon takes no more after a while, and keeps no more."""
    peer = Reader(daemon.address)
    peer.socket.settimeout(1)
    sent = 0
    try:
        while sent < 256 * MEBIBYTE:
            sent += peer.socket.send(poll() * 5000)
    except TimeoutError:
        pass
    # What the system keeps of a connection is a few mebibytes.
    assert sent < 64 * MEBIBYTE, sent
    memory = daemon.memory()
    peer.socket.settimeout(60)
    if is_reset:
        peer.reset()
        return memory
    # Once the answers are taken, all of what was sent is answered.
    left = sent // 9
    while left > 0:
        count = min(left, 10_000)
        assert peer.take(count * len(REFUSED)) == REFUSED * count
        left -= count
    peer.close()
    return memory


def thousand(daemon):
    """1,000 connections one after the other leave open files and memory as they were."""
    is_served(daemon)
    files, memory = daemon.open_files(), daemon.memory()
    for _ in range(1000):
        is_served(daemon)
    assert daemon.open_files() == files
    assert daemon.memory() <= memory + MEBIBYTE, (memory, daemon.memory())


def main():
    with Daemon(sys.argv[1], "-", "-") as daemon:
        for peers in [stops, one_by_one, silent, lies, garbage, goes, ten_thousand, thousand]:
            peers(daemon)
            is_served(daemon)
        memory = daemon.memory()
        for is_reset in [False, True]:
            assert flood(daemon, is_reset) <= memory + MEBIBYTE
            is_served(daemon)
        assert daemon.process.poll() is None


try:
    main()
except (AssertionError, Ended) as fault:
    raise SystemExit(f"daemon: {fault!r}") from fault
