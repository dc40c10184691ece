"""A reader of bcvd, and the daemon that it reads from: for the tests and the benchmark of the daemon."""
import os, resource, socket, struct, subprocess


class Refused(Exception):
    """An answer that refuses, with its reason."""


class Ended(Exception):
    """The daemon ended the connection."""


def message(kind, session, fields=b""):
    return struct.pack(">IBI", 5 + len(fields), kind, session) + fields


def poll(session=0):
    return message(1, session)


def begin(session, db):
    return message(2, session, db)


def read(session, offset, length):
    return message(3, session, struct.pack(">QI", offset, length))


def end(session):
    return message(4, session)


def hold(session, page):
    return message(6, session, struct.pack(">I", page))


class Reader:
    """One connection."""

    def __init__(self, address):
        self.socket = socket.create_connection(address, timeout=60)
        self.socket.setsockopt(socket.IPPROTO_TCP, socket.TCP_NODELAY, 1)

    def send(self, sent):
        self.socket.sendall(sent)

    def take(self, count):
        """The next bytes, so many of them."""
        taken = bytearray()
        while len(taken) < count:
            piece = self.socket.recv(min(count - len(taken), 1 << 20))
            if not piece:
                raise Ended(f"after {len(taken)} bytes of an answer")
            taken += piece
        return bytes(taken)

    def answer(self):
        """The kind, session and fields of the next answer."""
        (length,) = struct.unpack(">I", self.take(4))
        kind, session = struct.unpack(">BI", self.take(5))
        return kind, session, self.take(length - 5)

    def ask(self, sent):
        """The fields of the answer to one message."""
        self.send(sent)
        kind, session, fields = self.answer()
        if session != struct.unpack(">I", sent[5:9])[0]:
            raise AssertionError(f"an answer to session {session}")
        if kind == 64:
            raise Refused(fields.decode())
        return fields

    def rest(self):
        """What comes until the daemon ends the connection."""
        taken = bytearray()
        while piece := self.socket.recv(1 << 20):
            taken += piece
        return bytes(taken)

    def close(self):
        self.socket.close()

    def reset(self):
        """Ends the connection by a reset."""
        self.socket.setsockopt(socket.SOL_SOCKET, socket.SO_LINGER, struct.pack("ii", 1, 0))
        self.socket.close()


class Daemon:
    """A bcvd over a store's and a client's folder, at a free port, with so many bytes of memory at most."""

    def __init__(self, program, store, client, most=resource.RLIM_INFINITY):
        with socket.socket() as free:
            free.bind(("127.0.0.1", 0))
            self.address = free.getsockname()
        words = [program, store, client, "%s:%d" % self.address]
        limit = lambda: resource.setrlimit(resource.RLIMIT_AS, (most, most))
        self.process = subprocess.Popen(words, stdout=subprocess.PIPE, preexec_fn=limit)
        said = self.process.stdout.readline()
        if said != b"bcvd ready\n":
            self.process.wait()
            raise SystemExit(f"bcvd said {said!r} and ended with {self.process.returncode}")

    def __enter__(self):
        return self

    def __exit__(self, *_):
        self.process.kill()
        self.process.wait()

    def open_files(self):
        return len(os.listdir(f"/proc/{self.process.pid}/fd"))

    def memory(self):
        """The bytes of memory that it has now."""
        with open(f"/proc/{self.process.pid}/statm") as it:
            return int(it.read().split()[1]) * os.sysconf("SC_PAGE_SIZE")
