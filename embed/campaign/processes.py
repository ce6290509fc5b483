"""What the script starts, and that nothing of it stays: processes, the files below `place`, and what `undo` is told of."""
import atexit
import ctypes
import errno
import os
import pathlib
import random
import shutil
import signal
import socket
import string
import subprocess
import sys
import tempfile
import time

HERE = pathlib.Path(__file__).resolve().parent
ROOT = HERE.parent.parent

place = None
to_undo = []
PR_SET_CHILD_SUBREAPER = 36


def begin():
    """from here on every process started, and every one that those start, is this one's descendant until it ends"""
    global place
    if ctypes.CDLL(None).prctl(PR_SET_CHILD_SUBREAPER, 1, 0, 0, 0) != 0:
        sys.exit("embed/proxies: prctl failed")
    for number in signal.SIGINT, signal.SIGTERM, signal.SIGHUP:
        signal.signal(number, lambda *_: sys.exit(1))
    place = pathlib.Path(tempfile.mkdtemp(prefix="gitaymba-proxies-"))
    atexit.register(end)


def undo(what, *arguments):
    """at the end, also after an error, `what` is called; the last told first"""
    to_undo.append((what, arguments))


def descendants():
    parents = {}
    for entry in pathlib.Path("/proc").iterdir():
        if entry.name.isdigit():
            try:
                # the command's name may hold blanks and brackets
                parents[int(entry.name)] = int((entry / "stat").read_text().rpartition(")")[2].split()[1])
            except OSError:
                pass
    found = [os.getpid()]
    for pid in found:
        found += [child for child, parent in parents.items() if parent == pid]
    return found[1:]


def reap():
    try:
        while os.waitpid(-1, os.WNOHANG)[0]:
            pass
    except ChildProcessError:
        pass


def stop_all():
    for number, seconds in (signal.SIGTERM, 3), (signal.SIGKILL, 5):
        limit = time.monotonic() + seconds
        told = set()
        while time.monotonic() < limit:
            reap()
            there = descendants()
            if not there:
                return []
            for pid in set(there) - told:
                told.add(pid)
                try:
                    os.kill(pid, number)
                except ProcessLookupError:
                    pass
            time.sleep(0.02)
    return descendants()


def end():
    for number in signal.SIGINT, signal.SIGTERM, signal.SIGHUP:
        signal.signal(number, signal.SIG_IGN)
    left = [f"process {pid}" for pid in stop_all()]
    while to_undo:
        what, arguments = to_undo.pop()
        try:
            what(*arguments)
        except (OSError, SystemExit) as e:
            left.append(str(e))
    shutil.rmtree(place, ignore_errors=True)
    left += [str(path) for path in [place] if path.exists()]
    if left:
        print("embed/proxies: left behind:", *left, sep="\n  ", file=sys.stderr, flush=True)
        os._exit(1)


def run(*arguments, **options):
    """a command that must succeed; what it says is shown only if it does not"""
    options = {"input": "", "stdout": subprocess.PIPE, "stderr": subprocess.STDOUT, "text": True} | options
    done = subprocess.run([str(a) for a in arguments], **options)
    if done.returncode != 0:
        sys.exit(f"embed/proxies: {arguments[0]} failed\n{done.stdout}")
    return done.stdout


def place_of(name):
    """a file that is there for the time of the run"""
    return place / "".join(c if c.isalnum() or c in "._-" else "-" for c in name)


def log_of(name):
    return place_of(f"{name}.log")


def start(name, *arguments, **options):
    """a process of its own session, so that Ctrl-C reaches this script alone"""
    with log_of(name).open("wb") as log:
        options = {"stdin": subprocess.DEVNULL, "stdout": log, "stderr": log} | options
        return subprocess.Popen([str(a) for a in arguments], start_new_session=True, cwd=place, **options)


def start_helper(name, *arguments):
    """one of the programs beside this one: it prints its ports"""
    process = start(name, sys.executable, "-B", *arguments, stdout=subprocess.PIPE)
    ports = [int(port) for port in process.stdout.readline().split()]
    if not ports:
        fail(name)
    return ports


def fail(name):
    sys.exit(f"embed/proxies: {name} did not start\n{log_of(name).read_text(errors='replace')}")


def free_port():
    """of both addresses, and none that the kernel might give to a connection in the meantime"""
    while True:
        port = random.randrange(10000, 30000)
        try:
            for family, address in (socket.AF_INET, "127.0.0.1"), (socket.AF_INET6, "::1"):
                with socket.socket(family) as s:
                    s.bind((address, port))
            return port
        except OSError as e:
            if e.errno == errno.EADDRNOTAVAIL:
                sys.exit(f"embed/proxies: there is no address {address}")


def wait_for(name, process, address, port):
    for _ in range(600):
        try:
            socket.create_connection((address, port), 1).close()
            return
        except OSError:
            if process.poll() is not None:
                break
            time.sleep(0.05)
    fail(name)


def config(name, **words):
    """a configuration from the one beside this file"""
    path = place_of(f"{sum(1 for _ in place.iterdir())}-{name}")
    path.write_text(string.Template((HERE / name).read_text()).substitute(words))
    return path
