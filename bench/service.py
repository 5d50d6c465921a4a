"""A service of the built program, and clients of it: for the scripts beside this one."""
import os, re, resource, signal, socket, subprocess, time

WAIT = 60


def limit_files(most):
    """No file that the process writes may have more bytes; writing one then fails, and ends nothing."""
    signal.signal(signal.SIGXFSZ, signal.SIG_IGN)
    resource.setrlimit(resource.RLIMIT_FSIZE, (most, most))


def check_sum(content):
    """The check sum of the journal's records and notes."""
    total = 2166136261
    for byte in content:
        total = (total ^ byte) * 16777619 % 2 ** 32
    return total


def note(root, journal, content):
    """Notes in a folder that its journal has kept these bytes and no more."""
    path = os.path.join(root, ".beskloun.versions")
    with open(path, "rb") as file:
        bound = file.read().split(b" ")[0].decode()
    with open(path, "w") as file:
        file.write(f"{bound} {journal}\nMARK {len(content):020} {check_sum(content):010}\n")


class Service:
    """`compass serve` on a folder, at a port that it chooses, with these words more. `said` has the lines
    that it told at its start; where it ended then, it has no port."""

    def __init__(self, compass, folder, *words, most_bytes=None, **environment):
        limits = None if most_bytes is None else lambda: limit_files(most_bytes)
        self.process = subprocess.Popen(
            [compass, "serve", "--root", folder, "--port", "0", *words], stdin=subprocess.DEVNULL,
            stdout=subprocess.DEVNULL, stderr=subprocess.PIPE, text=True, env={**os.environ, **environment}, preexec_fn=limits)
        self.said, self.port = [], None
        for line in self.process.stderr:
            self.said.append(line.rstrip("\n"))
            found = re.search(r"listening on 127\.0\.0\.1:(\d+)", line)
            if found:
                self.port = int(found[1])
                break
        else:
            self.process.wait(WAIT)

    def client(self):
        return Client(self.port)

    def kill(self):
        self.process.kill()
        self.process.wait(WAIT)

    def processor_time(self):
        """The processor time of the service so far, in seconds."""
        # the clock of another process, as clock_getcpuclockid names it; /proc tells hundredths of a second alone
        return time.clock_gettime(~self.process.pid << 3 | 2)

    def memory(self):
        """The memory that the service holds, in megabytes."""
        with open(f"/proc/{self.process.pid}/status") as status:
            return next(int(row.split()[1]) for row in status if row.startswith("VmRSS:")) / 1000

    def __enter__(self):
        return self

    def __exit__(self, *_):
        self.kill()


class Client:
    """A session over one connection."""

    def __init__(self, port):
        self.socket = socket.create_connection(("127.0.0.1", port), timeout=WAIT)
        self.socket.setsockopt(socket.IPPROTO_TCP, socket.TCP_NODELAY, 1)
        self.input = self.socket.makefile("rb")

    def send(self, text):
        self.socket.sendall(text.encode())

    def line(self):
        """The next line that comes; an error where the connection ends in front of it."""
        line = self.input.readline()
        if not line.endswith(b"\n"):
            raise ConnectionError("the connection ended")
        return line[:-1].decode()

    def has_ended(self):
        """Whether the connection ends, and no line comes any more."""
        try:
            return self.input.readline() == b""
        except ConnectionError:
            return True

    def ask(self, text):
        """Sends the lines of a command; the first line of its reply."""
        self.send(text + "\n")
        return self.line()

    def change(self, text):
        """Sends the lines of a change that has to be accepted; the version that it made."""
        words = self.ask(text).split()
        assert words[0] == "OK", (text.split("\n")[0], words)
        return int(words[1])

    def shown(self, command):
        """The version that the reply to a command tells, and the lines behind it; no version where the
        command was refused."""
        words = self.ask(command).split()
        if words[0] != "OK":
            return None, []
        return int(words[1]), [self.line() for _ in range(int(words[2]))]

    def status(self):
        """The words of each line of STATUS behind the first."""
        return [row.split() for row in self.shown("STATUS")[1]]

    def version(self, name):
        return next(int(row[1]) for row in self.status() if row[0] == name)

    def published(self, seconds=WAIT):
        """The desk's version, once it is published and each deck is assembled, or none after some seconds."""
        until = time.monotonic() + seconds
        while time.monotonic() < until:
            version, (first, *decks) = self.shown("STATUS")
            if first == f"PUBLISHED {version}" and all(row.endswith(" READY") for row in decks):
                return version
            time.sleep(0.01)
        return None

    def add(self, name, cards):
        """A new deck of so many cards; its version."""
        self.change(f"ADD {name}")
        version = self.change(f"INS {name} {self.version(name)} 1 *")
        for first in range(1, cards, 100):
            count = min(100, cards - first)
            version = self.change("\n".join([f"BATCH {name} {version} {count}"] + ["INS 1 *"] * count))
        return version
