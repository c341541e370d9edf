"""A Debian in a folder, in which commands run with processes and a network of their own."""

import hashlib
import os
import re
import stat
import subprocess
import sys

from octets import octets_in

ARCHIVE = "http://deb.debian.org/debian"
SUITE = "bookworm"
PLAIN = {"PATH": "/usr/sbin:/usr/bin:/sbin:/bin", "LC_ALL": "C.UTF-8", "HOME": "/root", "DEBIAN_FRONTEND": "noninteractive"}


def run(*words, **more):
    return subprocess.run([str(n) for n in words], stdin=more.pop("stdin", subprocess.DEVNULL) if "input" not in more else None, capture_output=True, timeout=3600, **more)


def complaint(found, status=0):
    """What is wrong with a run that should have this status."""
    return None if found.returncode == status else "status %d: %s" % (found.returncode, (found.stderr or found.stdout).decode("utf-8", "replace").strip()[-600:])


def must(found):
    """Ends the script where a step failed that all others need."""
    if found.returncode != 0:
        print("cannot go on: %s\n%s" % (" ".join(map(str, found.args))[:300], found.stderr.decode("utf-8", "replace")[-3000:]), file=sys.stderr)
        sys.exit(1)
    return found


class Folder:
    """A Debian in a folder: of debootstrap's minbase, or of a tar of one."""

    # What others keep of their own: of these files the names alone are compared.
    KEPT = re.compile("/(var/(lib/dpkg|lib/apt|cache|log)(/|$)|etc/ld.so.cache$|tmp$|run(/|$)|root$)")

    def __init__(self, at, bare=None):
        self.at = at
        if bare:
            os.mkdir(at)
            must(run("tar", "-C", at, "-xpf", bare))
        else:
            must(run("debootstrap", "--variant=minbase", SUITE, at, ARCHIVE))

    def run(self, *words, network=False, **more):
        """Runs a command in it, with processes and, if nothing is said, a network of its own, which has a loopback alone."""
        unshare = ["unshare", "--mount", "--pid", "--fork", "--mount-proc=" + os.path.join(self.at, "proc")] + ([] if network else ["--net"])
        loopback = "" if network else "ip link set lo up; "
        inside = ["sh", "-c", loopback + 'exec chroot "$@"', "sh", self.at]
        return run(*unshare, *inside, *words, env=more.pop("env", PLAIN), **more)

    def shell(self, script, **more):
        return self.run("bash", "-c", script, **more)

    def put(self, octets, path, mode=0o644):
        with open(self.at + path, "wb") as file:
            file.write(octets)
        os.chmod(self.at + path, mode)

    def files(self):
        """Each path with what is compared of it."""
        found = {}
        for folder, folders, names in os.walk(self.at):
            below = folder[len(self.at) :] or "/"
            if re.match("/(proc|sys|dev|tmp)$", below):
                folders[:] = []
                continue
            for name in folders + names:
                path = os.path.join(below, name)
                about = os.lstat(self.at + path)
                if self.KEPT.match(path):
                    found[path] = "a name"
                elif stat.S_ISLNK(about.st_mode):
                    found[path] = os.readlink(self.at + path)
                else:
                    octets = hashlib.sha256(octets_in(self.at + path)).hexdigest() if stat.S_ISREG(about.st_mode) else ""
                    found[path] = "%o %d %d %s" % (about.st_mode, about.st_uid, about.st_gid, octets)
        return found
