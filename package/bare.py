"""A bare Debian, on which `tools/release --check` tries the package.

`check` makes it, and has apt install, remove and purge the package there. `within`, which runs in namespaces of its own,
starts what the service starts, and asks it. No systemd runs there.
"""
import contextlib
import fcntl
import json
import os
import pathlib
import re
import shutil
import socket
import struct
import subprocess
import sys
import tempfile
import urllib.parse
import urllib.request

FOLDER = "var/lib/padd"


class Missing(Exception):
    """Something that this needs isn't there."""


class Wrong(Exception):
    """Something isn't as it should be."""


def holds(is_so, what):
    print(f"{'well' if is_so else 'WRONG'}: {what}", flush=True)
    if not is_so:
        raise Wrong(what)


# ---- outside


def suite():
    found = re.search(r"(?m)^VERSION_CODENAME=(\w+)$", pathlib.Path("/etc/os-release").read_text("utf-8"))
    if not found:
        raise Missing("a release of Debian, which /etc/os-release names")
    return found[1]


def made(root):
    """Makes the system in a folder."""
    ran = subprocess.run(["debootstrap", "--variant=minbase", suite(), root], text=True, capture_output=True, check=False)
    if ran.returncode:
        raise Missing("a system by debootstrap: " + " | ".join((ran.stdout + ran.stderr).strip().split("\n")[-3:]))
    shutil.copyfile("/etc/resolv.conf", root / "etc/resolv.conf")
    # as in a container: no service is started by the packages themselves
    (root / "usr/sbin/policy-rc.d").write_text("#!/bin/sh\nexit 101\n")
    (root / "usr/sbin/policy-rc.d").chmod(0o755)


@contextlib.contextmanager
def mounted(root):
    subprocess.run(["mount", "-t", "proc", "proc", root / "proc"], check=True)
    try:
        yield
    finally:
        subprocess.run(["umount", "-l", root / "proc"], check=False)


def apt(root, *words):
    """What apt wrote."""
    ran = subprocess.run(["chroot", root, "env", "DEBIAN_FRONTEND=noninteractive", "LC_ALL=C", "apt-get", "-q", "-y",
                          "--no-install-recommends", *words], text=True, stdout=subprocess.PIPE, stderr=subprocess.STDOUT, check=False)
    if ran.returncode:
        raise Wrong(f"apt-get {' '.join(words)}: " + " | ".join(ran.stdout.strip().split("\n")[-6:]))
    return ran.stdout


def asked(root, what):
    """Has `within` do something, where no other process and no other network is."""
    ran = subprocess.run(["unshare", "--net", "--pid", "--fork", "--kill-child", sys.executable, __file__, root, what], check=False)
    if ran.returncode:
        raise Wrong(f"what the service starts: {what}")


def pads(root):
    return sorted(it.name for it in (root / FOLDER).glob("*.pad"))


def check(package):
    if os.geteuid():
        raise Missing("a run as root")
    for program, name in (("debootstrap", "debootstrap"), ("unshare", "util-linux"), ("chroot", "coreutils")):
        if not shutil.which(program):
            raise Missing(f"Debian's package {name}")
    if not package.is_file():
        raise Missing(package)
    with tempfile.TemporaryDirectory() as folder:
        root = pathlib.Path(folder) / "bare"
        root.mkdir(mode=0o755)
        os.chmod(folder, 0o755)
        made(root)
        with mounted(root):
            tried(root, package)


def tried(root, package):
    shutil.copyfile(package, root / package.name)
    apt(root, "install", f"/{package.name}")
    at = (root / FOLDER).stat()
    holds(at.st_mode & 0o777 == 0o700 and at.st_uid == user(root)[0], "installed, with a folder that the service's user alone has")
    key = (root / "etc/padd.key").stat()
    holds(key.st_mode & 0o777 == 0o640 and (key.st_uid, key.st_gid) == (0, user(root)[1]), "a key that this user reads, and no other")
    holds((root / "etc/systemd/system/multi-user.target.wants/padd.service").is_symlink(), "the service starts with the machine")
    verified(root)
    for name in ("padd", "easysync", "padedit"):
        if (root / "usr/bin" / name).exists():
            holds((root / f"usr/share/man/man1/{name}.1.gz").exists(), f"{name} has its manual")
    asked(root, "write")
    kept = pads(root)
    holds(kept == ["6e6f746573.pad"], "the pad has its file")

    removed = apt(root, "remove", "padd")
    holds(not (root / "usr/bin/padd").exists() and pads(root) == kept, "removed: the program is gone, and the pads stay")
    holds("/var/lib/padd" in removed, "and the removal says so")
    apt(root, "install", f"/{package.name}")
    asked(root, "read")
    purged = apt(root, "purge", "padd")
    gone = [it for it in ("usr/bin/padd", "etc/padd.conf", "etc/padd.key", "usr/share/doc/padd/RELEASE") if (root / it).exists()]
    holds(not gone and pads(root) == kept, "purged: settings and key are gone, and the pads stay")
    holds("padd: the pads stay, in /var/lib/padd." in purged, "and `purge` says so")


def verified(root):
    """What systemd itself says of the service, where it was installed with the package."""
    if (root / "usr/bin/systemd-analyze").exists():
        ran = subprocess.run(["chroot", root, "systemd-analyze", "verify", "--man=no", "padd.service"], text=True, capture_output=True, check=False)
        holds(not ran.returncode and not ran.stderr, "systemd finds no fault with the service" + ran.stderr)


# ---- within


def user(root):
    """The numbers of the service's user and of its group."""
    rows = (line.split(":") for line in (root / "etc/passwd").read_text("utf-8").splitlines())
    return next((int(row[2]), int(row[3])) for row in rows if row[0] == "padd")


def service(root):
    """The words that the service starts, as systemd would make them of the unit and of /etc/padd.conf."""
    unit = dict(re.findall(r"(?m)^(\w+)=(.*)$", (root / "usr/lib/systemd/system/padd.service").read_text("utf-8")))
    if unit["User"] != "padd" or unit["StateDirectory"] != "padd":
        raise Wrong("the service has another user or another folder")
    given = dict(re.findall(r"(?m)^(\w+)=(.*)$", (root / unit["EnvironmentFile"].lstrip("/")).read_text("utf-8")))
    return [re.sub(r"\$\{(\w+)\}", lambda it: given[it[1]], word) for word in unit["ExecStart"].split()]


def loopback():
    """Gives a new network its own machine: 127.0.0.1."""
    up, running = 0x1, 0x40
    with socket.socket() as it:
        fcntl.ioctl(it, 0x8914, struct.pack("16sH14x", b"lo", up | running))


def wrote(root, pads_at, token, lines):
    ran = subprocess.run(["chroot", root, "/usr/bin/padd", "write", pads_at, "notes", token], input=lines, text=True,
                         stdout=subprocess.PIPE, check=False)
    return ran.stdout


def text(root, api_at):
    key = (root / "etc/padd.key").read_text("utf-8").strip()
    query = urllib.parse.urlencode({"apikey": key, "padID": "notes"})
    with urllib.request.urlopen(f"http://{api_at}/api/1.2/getText?{query}", timeout=20) as reply:
        return json.loads(reply.read())["data"]["text"]


def within(root, what):
    loopback()
    words = service(root)
    as_user = "{}:{}".format(*user(root))
    server = subprocess.Popen(["chroot", f"--userspec={as_user}", root, *words], stdout=subprocess.PIPE)
    try:
        holds(server.stdout.readline() == b"ready\n", "the service's command is ready")
        pads_at, api_at = words[2:4]
        if what == "write":
            holds(wrote(root, pads_at, "ann", "insert 0 hello\n") == 'rev 1 "hello\\n"\n', "a pad is written")
            holds(wrote(root, pads_at, "ben", "insert 5 , you\n") == 'rev 2 "hello, you\\n"\n', "another writes into it")
        holds(text(root, api_at) == "hello, you\n", "the API tells its text, with the key that was made")
    finally:
        server.kill()
        server.wait()
    judged = subprocess.run(["chroot", f"--userspec={as_user}", root, "/usr/bin/padd", "verify", f"/{FOLDER}", "2"], text=True,
                            stdout=subprocess.PIPE, check=False)
    holds(judged.stdout == '"notes" whole head 2 units 11\n' and judged.returncode == 0, "the killed server's file is whole")


if __name__ == "__main__":
    try:
        within(pathlib.Path(sys.argv[1]), sys.argv[2])
    except Wrong:
        sys.exit(1)
