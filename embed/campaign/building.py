"""Debian's packages, and the programs built below target/embed."""
import os
import pathlib
import shutil
import subprocess
import sys

from processes import HERE, ROOT, run, undo

PROXIES = "microsocks dante-server openssh-server openssh-client".split()
PEERS = "curl netcat-openbsd ncat socat python3-socks python3-python-socks proxychains4 tsocks dante-client connect-proxy".split()
MADE = ROOT / "target/embed/proxies"


def versions(packages):
    """of those that are installed"""
    command = ["dpkg-query", "-W", "-f", "${db:Status-Status} ${Package} ${Version}\n", *packages]
    done = subprocess.run(command, stdout=subprocess.PIPE, stderr=subprocess.DEVNULL, text=True)
    return dict(line.split()[1:] for line in done.stdout.splitlines() if line.startswith("installed "))


def install(packages):
    there = versions(packages)
    missing = [name for name in packages if name not in there]
    if not missing:
        return
    # Debian starts a server when it is installed, on all addresses; this tells it not to
    policy = pathlib.Path("/usr/sbin/policy-rc.d")
    if not policy.exists():
        undo(policy.unlink, True)
        policy.write_text("#!/bin/sh\nexit 101\n")
        policy.chmod(0o755)
    print("embed/proxies: installs", *missing, flush=True)
    run(ROOT / "compare/install", *missing, env=os.environ | {"DEBIAN_FRONTEND": "noninteractive"})


def archive():
    """the directory that holds libgitaymba.a"""
    given = os.environ.get("GITAYMBA_LIB")
    built = ROOT / "crates/gitaymba/out/libgitaymba.a"
    if not given and not built.exists():
        print("embed/proxies: rt lib in crates/gitaymba", flush=True)
        run("rt", "lib", cwd=ROOT / "crates/gitaymba")
    lib = MADE / "lib"
    lib.mkdir(parents=True, exist_ok=True)
    shutil.copy(given or built, lib / "libgitaymba.a")
    return lib


def clients():
    lib = archive()
    c, embed = MADE / "many", ROOT / "embed"
    flags = ["-O2", "-std=c11", "-D_DEFAULT_SOURCE", "-Wall", "-Wextra", "-Werror", "-I", embed / "include", "-I", embed / "c"]
    run(os.environ.get("CC", "cc"), *flags, HERE / "many.c", lib / "libgitaymba.a", "-o", c)
    environment = os.environ | {"GITAYMBA_LIB_DIR": str(lib), "CARGO_TARGET_DIR": str(MADE / "cargo")}
    run("cargo", "build", "--quiet", "--release", "--offline", "--example", "many", cwd=ROOT / "embed/rust", env=environment)
    return {"C": c, "Rust": MADE / "cargo/release/examples/many"}


def original():
    """the Rust original's program, or None if its sources are not there"""
    docs = pathlib.Path(os.environ.get("DOCS_SRC", ROOT / "../shared/docs/src"))
    if not docs.is_dir():
        print(f"embed/proxies: without the Rust original: there is no {docs}", file=sys.stderr)
        return None
    run(ROOT / "compare/oracle/build", docs.resolve())
    made = ROOT / "target/compare"
    tree = MADE / "tree"
    shutil.rmtree(tree, ignore_errors=True)
    shutil.copytree(made / "tree", tree)
    shutil.copyfile(HERE / "original.rs", tree / "original.rs")
    # as compare/oracle/build does
    flags = ["--edition", "2024", "--cfg", 'feature="client-legacy"', "--check-cfg", "cfg(feature, values(any()))", "-C", "opt-level=3"]
    flags += [word for name in "bytes http tower_service pin_project_lite".split() for word in ("--extern", name)]
    program = MADE / "original"
    run("rustc", "--crate-name", "original", *flags, "-L", made / "lib", "-o", program, tree / "original.rs")
    return program
