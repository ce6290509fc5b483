"""The server that sends first, the proxies, and the relays in front of them; all on 127.0.0.1 and ::1 alone."""
import os
import pathlib
import pwd
import secrets

from processes import HERE, config, free_port, place_of, run, start, start_helper, undo, wait_for

# the streams' lengths: by the kind of destination, one of them more than a read takes; and a short one for the relay that cuts
LENGTHS = {"IPv4": 4096, "IPv6": 600, "name": 70000, "cut": 200}
HOSTS = {"IPv4": "127.0.0.1", "IPv6": "::1", "name": "localhost"}
WAYS = "direct", "joined", "cut"


class Proxy:
    """where it listens, itself and behind each relay, and what it asks for"""

    def __init__(self, name, process, port, address="127.0.0.1", credentials=()):
        wait_for(name, process, address, port)
        self.name, self.credentials = name, list(credentials)
        self.ports = {"direct": port}
        self.address = address
        for way in WAYS[1:]:
            self.ports[way], = start_helper(f"{name} {way}", HERE / "relay.py", way, address, address, port)

    def at(self, way):
        host = f"[{self.address}]" if ":" in self.address else self.address
        return f"{host}:{self.ports[way]}"


def streams():
    """the files, by kind: a line with a time scale, then lines with numbers, to the length"""
    files = {}
    for kind, length in LENGTHS.items():
        lines = b"$timescale 1ns $end\n" + b"".join(b"#%d\n" % n for n in range(length))
        files[kind] = place_of(f"stream-{length}")
        files[kind].write_bytes(lines[: length - 1] + b"\n")
    return files


def serve(files):
    return dict(zip(files, start_helper("server", HERE / "server.py", *files.values())))


def microsocks(name="microsocks", address="127.0.0.1", credentials=()):
    port = free_port()
    words = ["-u", credentials[0], "-P", credentials[1]] if credentials else []
    return Proxy(name, start(name, "microsocks", "-i", address, "-p", port, *words), port, address, credentials)


def danted(name="danted", credentials=()):
    port = free_port()
    method = "username" if credentials else "none"
    path = config("danted.conf", address="127.0.0.1", port=port, method=method, log=place_of(f"{name}.log"))
    return Proxy(name, start(name, "danted", "-f", path, "-p", place_of(f"{name}.pid")), port, credentials=credentials)


def forget(user):
    if any(entry.pw_name == user for entry in pwd.getpwall()):
        run("userdel", user)


def user():
    """danted knows the system's users alone: one without a home and a shell, for the time of the run"""
    name, password = f"gitaymba-{os.getpid()}", secrets.token_hex(16)
    undo(forget, name)
    run("useradd", "--system", "--no-create-home", "--home-dir", "/nonexistent", "--shell", "/usr/sbin/nologin", name)
    # a cheap hash, for danted takes it with each connection
    run("chpasswd", "-c", "SHA256", "-s", "1000", input=f"{name}:{password}\n")
    return name, password


def ssh():
    """`ssh -D` to an sshd that it starts itself and speaks to by pipes: that one listens nowhere, and no packets wait for each other"""
    port, host_key, user_key = free_port(), place_of("host_key"), place_of("user_key")
    for key in host_key, user_key:
        run("ssh-keygen", "-q", "-t", "ed25519", "-N", "", "-f", key)
    separate = pathlib.Path("/run/sshd")
    if not separate.exists():
        undo(separate.rmdir)
        separate.mkdir(mode=0o755)
    path = config("sshd_config", host_key=host_key, user_key=user_key)
    me = pwd.getpwuid(os.geteuid()).pw_name
    options = [f"ProxyCommand=/usr/sbin/sshd -i -e -f {path}", "StrictHostKeyChecking=no", "UserKnownHostsFile=/dev/null",
               "IdentitiesOnly=yes", "BatchMode=yes", "ExitOnForwardFailure=yes", "LogLevel=ERROR"]
    words = ["-F", "/dev/null", "-N", "-D", f"127.0.0.1:{port}", "-i", user_key]
    words += [word for option in options for word in ("-o", option)]
    return Proxy("ssh -D", start("ssh -D", "ssh", *words, f"{me}@localhost"), port)


def start_all():
    login = user()
    found = [microsocks(), microsocks("microsocks, credentials", credentials=("me", "secret")), microsocks("microsocks at ::1", "::1")]
    found += [danted(), danted("danted, credentials", login), ssh()]
    return {proxy.name: proxy for proxy in found}
