"""Other people's clients behind the relay that joins the last reply and the stream's start; and the Rust original without a relay."""
import os
import select
import subprocess
import time

from processes import HERE, config, log_of, start
from proxies import HOSTS

RUNS = 20
DIRECT_RUNS = 300
LIMIT = 15  # seconds of a run
QUIET = 2   # seconds without a byte behind which no more are awaited
PYTHON = "/usr/bin/python3"  # the one that has Debian's modules


def stream_of(command, size, environment):
    """what the command prints. Its input stays open while bytes may come: at its end some clients close, and some proxies with them"""
    got, begun = b"", time.monotonic()
    with start("peer", *command, stdin=subprocess.PIPE, stdout=subprocess.PIPE, env=os.environ | environment) as process:
        while time.monotonic() - begun < LIMIT:
            if not select.select([process.stdout], [], [], QUIET if got else LIMIT)[0]:
                if process.stdin.closed:
                    break
                process.stdin.close()
                continue
            piece = os.read(process.stdout.fileno(), 65536)
            if not piece:
                break
            got += piece
            if len(got) >= size and not process.stdin.closed:
                process.stdin.close()
        process.kill()
    return got


class Kept:
    """how much of the stream the runs kept"""

    def __init__(self, want):
        self.want, self.runs, self.first, self.whole, self.lost = want, 0, 0, 0, 0
        self.joined = None

    def add(self, got):
        self.runs += 1
        if got and self.want.startswith(got):
            self.first += 1
            self.whole += got == self.want
        elif self.want.endswith(got):
            self.lost = max(self.lost, len(self.want) - len(got))
        else:
            self.lost = len(self.want)

    def cells(self):
        return f"{self.joined} of {self.runs} | {self.first} of {self.runs} | {self.lost:,} | {self.whole} of {self.runs}"


def joined_by(name):
    """how often the relay before that proxy has joined"""
    return log_of(f"{name} joined").read_bytes().count(b"joined")


def commands(world):
    """client, way, proxy, command, environment"""
    # of the proxies, the first knows v5, the second v4, the third 4a
    five, four, named = "microsocks", "danted", "ssh -D"
    port = {name: world.proxies[name].ports["joined"] for name in (five, four, named)}
    at = {name: f"127.0.0.1:{port[name]}" for name in port}
    to = ["127.0.0.1", world.ports["IPv4"]]
    to_name = ["localhost", world.ports["IPv4"]]
    nc = ["nc.openbsd", "-w", LIMIT]

    def curl(kind, name, host):
        words = ["curl", "-q", "-sN", "--max-time", LIMIT, "--noproxy", "", "-x", f"{kind}://{at[name]}"]
        return "curl", kind, name, [*words, f"gopher://{host[0]}:{host[1]}/"], {}

    def chained(kind, name):
        path = config("proxychains.conf", kind=kind, port=port[name])
        return "proxychains4", f"{kind}, with nc", name, ["proxychains4", "-q", "-f", path, *nc, *to], {}

    # of itself tsocks goes to 127.0.0.0/8 without the proxy, always, and socksify to the nets of all interfaces, unless it is told
    tsocks = {"TSOCKS_CONF_FILE": str(config("tsocks.conf", port=port[five]))}
    socksify = {"SOCKS_CONF": str(config("socksify.conf", port=port[five])), "SOCKS_AUTOADD_LANROUTES": "no",
                "SOCKS_DIRECTROUTE_FALLBACK": "no"}

    rows = [
        curl("socks5", five, to),
        curl("socks5h", five, to_name),
        curl("socks4", four, to),
        curl("socks4a", named, to_name),
        ("nc", "`-X 5`", five, [*nc, "-X", "5", "-x", at[five], *to], {}),
        ("nc", "`-X 4`", four, [*nc, "-X", "4", "-x", at[four], *to], {}),
        ("ncat", "socks5", five, ["ncat", "--proxy", at[five], "--proxy-type", "socks5", *to], {}),
        ("ncat", "socks4", four, ["ncat", "--proxy", at[four], "--proxy-type", "socks4", *to], {}),
        ("socat", "SOCKS4", four, ["socat", "-", f"SOCKS4:127.0.0.1:{to[0]}:{to[1]},socksport={port[four]}"], {}),
        ("socat", "SOCKS4A", named, ["socat", "-", f"SOCKS4A:127.0.0.1:{to_name[0]}:{to_name[1]},socksport={port[named]}"], {}),
        ("PySocks", "SOCKS5", five, [PYTHON, HERE / "by_pysocks.py", "5", port[five], *to], {}),
        ("PySocks", "SOCKS4", four, [PYTHON, HERE / "by_pysocks.py", "4", port[four], *to], {}),
        ("python-socks", "socks5", five, [PYTHON, HERE / "by_python_socks.py", "5", port[five], *to], {}),
        ("python-socks", "socks4", four, [PYTHON, HERE / "by_python_socks.py", "4", port[four], *to], {}),
        chained("socks5", five),
        chained("socks4", four),
        ("tsocks", "5, with nc", five, ["tsocks", *nc, "0.0.0.0", to[1]], tsocks),
        ("socksify", "v5, with nc", five, ["socksify", *nc, *to], socksify),
        ("connect-proxy", "`-5`", five, ["connect-proxy", "-5", "-S", at[five], *to], {}),
        ("connect-proxy", "`-4`", four, ["connect-proxy", "-4", "-S", at[four], *to], {}),
    ]
    if world.original:
        for version, name in ("5", five), ("4", four):
            rows.append(("the Rust original", f"v{version}", name, [world.original, at[name], version, *to], {}))
    return rows


def ours(world):
    """our clients, in the ways of the others; they compare for themselves"""
    stream = [world.ports["IPv4"], 1, world.files["IPv4"]]
    for client, program in world.clients.items():
        for version, name, kind in ("v5", "microsocks", "IPv4"), ("v4", "danted", "IPv4"), ("4a", "ssh -D", "name"):
            yield client, version, name, [program, world.proxies[name].at("joined"), version.strip("va"), HOSTS[kind], *stream]


def peers(world):
    """the table's lines, and how many connections of ours there were and were not whole"""
    want = world.files["IPv4"].read_bytes()
    lines = [f"The stream has {len(want):,} bytes; joined counts the runs in which the relay sent the last reply and the stream's start as "
             "one.", "", "| Client | Way | Proxy | Joined | First byte kept | Lost at the start, most | Whole stream |", "|---" * 7 + "|"]
    made = failed = 0
    for client, version, name, command in ours(world):
        kept, before = Kept(want), joined_by(name)
        for _ in range(RUNS):
            with start("peer", *command, stdout=subprocess.PIPE, text=True) as process:
                said = process.stdout.read()
            kept.add(want if said == "open 1 whole 1 with-rest 1\n" and process.returncode == 0 else b"")
        kept.joined = joined_by(name) - before
        made, failed = made + kept.runs, failed + kept.runs - kept.whole
        lines.append(f"| Gitaymba, {client} | {version} | {name} | {kept.cells()} |")
        print(lines[-1], flush=True)
    for client, way, name, command, environment in commands(world):
        kept, before = Kept(want), joined_by(name)
        for _ in range(RUNS):
            kept.add(stream_of(command, len(want), environment))
        kept.joined = joined_by(name) - before
        lines.append(f"| {client} | {way} | {name} | {kept.cells()} |")
        said = log_of("peer").read_text(errors="replace").split("\n")[0] if kept.whole < kept.runs else ""
        print(lines[-1], said, flush=True)
    return lines, made, failed


def without_relay(world):
    """the Rust original's runs in which bytes were lost, no relay between"""
    want = world.files["IPv4"].read_bytes()
    lines = ["The Rust original without a relay:", "", "| Proxy | Over | Runs that lost bytes | Lost at the start, most |"]
    lines += ["|---" * 4 + "|"]
    for name, version in ("microsocks", "5"), ("danted", "5"), ("danted", "4"), ("ssh -D", "5"), ("ssh -D", "4"):
        kept = Kept(want)
        for _ in range(DIRECT_RUNS):
            command = [world.original, world.proxies[name].at("direct"), version, "127.0.0.1", world.ports["IPv4"]]
            kept.add(stream_of(command, len(want), {}))
        lines.append(f"| {name} | v{version} | {kept.runs - kept.whole} of {kept.runs} | {kept.lost:,} |")
        print(lines[-1], flush=True)
    return lines
