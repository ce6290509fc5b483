"""The campaign: our clients, C and Rust, through each proxy, directly and behind both relays, in whatever way the proxy knows."""
import re
import subprocess
import sys
import time

from processes import place_of, start
from proxies import HOSTS, LENGTHS, WAYS

AT_ONCE = 2
# the ways that a proxy knows; the others stand in LACKING
ROWS = [(name, "v5", kind) for name in ("microsocks", "microsocks, credentials") for kind in HOSTS]
ROWS += [("microsocks at ::1", "v5", "IPv6")]
ROWS += [("danted", "v5", kind) for kind in HOSTS]
ROWS += [("danted", "v4", "IPv4")]
ROWS += [("danted, credentials", "v5", kind) for kind in HOSTS]
ROWS += [("ssh -D", "v5", kind) for kind in HOSTS]
ROWS += [("ssh -D", "v4", "IPv4"), ("ssh -D", "4a", "name")]
LACKING = [("microsocks", "v4", "IPv4"), ("microsocks", "4a", "name"), ("danted", "4a", "name")]
LACKING += [("ssh -D", "v5", "IPv4", "me", "secret")]


class Cell:
    """one client, one way, one kind of destination: so many connections, one after the other"""

    def __init__(self, row, way, client, expected=None):
        self.row, self.way, self.client, self.expected = row, way, client, expected
        self.opened = self.whole = self.with_rest = 0

    def start(self, world, count):
        name, version, kind, *credentials = self.row
        proxy = world.proxies[name]
        stream = "cut" if self.way == "cut" else kind
        self.count, self.length = count, world.files[stream].stat().st_size
        expected = self.expected or world.files[stream]
        words = [world.clients[self.client], proxy.at(self.way), "5" if version == "v5" else "4", HOSTS[kind], world.ports[stream]]
        words += [count, expected, *(credentials or proxy.credentials)]
        self.begun = time.monotonic()
        self.process = start("client", *words, stdout=subprocess.PIPE, stderr=subprocess.STDOUT, text=True)

    def done(self):
        """whether it has ended; one that takes too long is ended"""
        self.took = time.monotonic() - self.begun
        if self.process.poll() is None:
            if self.took < 120 + self.count:
                return False
            self.process.kill()
        self.said = self.process.communicate()[0].strip()
        if found := re.search(r"^open (\d+) whole (\d+) with-rest (\d+)$", self.said, re.M):
            self.opened, self.whole, self.with_rest = map(int, found.groups())
        return True

    def fault(self):
        """what is wrong with it, or nothing: behind a relay that joins or cuts, it must have done so"""
        if self.opened < self.count:
            return f"{self.count - self.opened} did not open"
        if self.whole < self.count:
            return f"{self.count - self.whole} not whole"
        if self.process.returncode != 0:
            return f"exit status {self.process.returncode}"
        if self.way == "joined" and self.with_rest < self.count:
            return f"{self.count - self.with_rest} not joined"
        if self.way == "cut" and self.with_rest > 0:
            return f"{self.with_rest} not cut"
        return ""

    def __str__(self):
        counts = f"open {self.opened} whole {self.whole} with-rest {self.with_rest} ({self.took:.1f} s)"
        fault = "\n".join([f" FAULT: {self.fault()}", *self.said.splitlines()[:3]]) if self.fault() else ""
        return f"{', '.join(self.row)}, {self.way}, {self.client}: {counts}{fault}"


def two_at_a_time(cells, world, count):
    waiting, running = list(cells), []
    while waiting or running:
        while waiting and len(running) < AT_ONCE:
            running.append(waiting.pop(0))
            running[-1].start(world, count)
        for cell in [cell for cell in running if cell.done()]:
            running.remove(cell)
            yield cell
        time.sleep(0.02)


def campaign(world, count):
    cells = [Cell(row, way, client) for row in ROWS for way in WAYS for client in world.clients]
    for number, cell in enumerate(two_at_a_time(cells, world, count), 1):
        print(f"{number} of {len(cells)}: {cell}", flush=True)
    return cells


def lacking(world):
    """the ways that a proxy does not know, one connection each: that it does not open"""
    for cell in two_at_a_time([Cell(row, "direct", "C") for row in LACKING], world, 1):
        name, version, _, *credentials = cell.row
        way = f"{version} with credentials" if credentials else version
        reason = re.search(r"did not open: (.*)", cell.said)
        yield f"{name} opens {way}." if cell.opened else f"{name} does not open {way}: {reason[1] if reason else 'nothing is said'}."


def check_clients(world):
    """a client that compares must find a byte more and a byte less at either end, and another one"""
    stream = world.files["IPv4"].read_bytes()
    others = {"first-less": stream[1:], "last-less": stream[:-1], "first-more": b"$" + stream, "last-more": stream + b"\n",
              "another": stream[:-2] + b"x\n"}
    cells = []
    for name, other in others.items():
        path = place_of(name)
        path.write_bytes(other)
        cells += [Cell(ROWS[0], "direct", client, path) for client in world.clients]
    for cell in two_at_a_time(cells, world, 1):
        if (cell.opened, cell.whole, cell.process.returncode) != (1, 0, 1):
            sys.exit(f"embed/proxies: {cell.client} does not find a stream that differs: {cell.expected.name}\n{cell.said}")


def table(cells):
    clients = list(dict.fromkeys(cell.client for cell in cells))
    columns = [(way, client) for way in WAYS for client in clients]
    to = {"IPv4": "to IPv4", "IPv6": "to IPv6", "name": "to a name", "cut": "where it is cut"}
    lengths = ", ".join(f"{length:,} {to[kind]}" for kind, length in LENGTHS.items())
    lines = [f"Whole streams, of {cells[0].count:,} connections a cell; in brackets, those whose first bytes came in one read with the "
             f"last reply. Bytes of a stream: {lengths}.", ""]
    lines += ["| Proxy | Over | To | " + " | ".join(f"{way.capitalize()}, {client}" for way, client in columns) + " |"]
    lines += ["|---" * (3 + len(columns)) + "|"]
    for row in ROWS:
        found = {(cell.way, cell.client): cell for cell in cells if cell.row == row}
        words = [f"{found[c].whole} ({found[c].with_rest})" for c in columns]
        lines.append(f"| {' | '.join([*row, *words])} |")
    return lines
