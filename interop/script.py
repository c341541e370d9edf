"""What a script begins with: its options, the packages that it needs, and the library."""

import glob
import importlib.machinery
import importlib.util
import os
import random
import shutil
import subprocess
import sys
import threading

from checks import NAME

TOP = os.path.dirname(os.path.dirname(os.path.abspath(__file__)))
PROGRAM = os.path.join(TOP, "crates", "jolmurig", "out", "jolmurig")
PYTHON = "/usr/bin/python3"  # Debian's, for which its packages are
PATHS = "/usr/sbin:/usr/bin:/sbin:/bin"
# What a realm of MIT Kerberos is looked for by, and the package that has it.
MIT = {"krb5kdc": "krb5-kdc", "kadmind": "krb5-admin-server", "kadmin.local": "krb5-admin-server", "kinit": "krb5-user"}


def options_of(doc, *switches, paths=("--library",), with_seed=False, seed=None):
    """What the script is given, by its options: whether each switch, an absolute path or None, and a seed, of chance where it is not given and none stands for
    that. Other words end the script, which prints its usage."""
    found, words, with_seed = {**dict.fromkeys(switches, False), **dict.fromkeys(paths)}, sys.argv[1:], with_seed or seed is not None
    if with_seed:
        found["--seed"] = random.SystemRandom().randrange(10**6) if seed is None else seed
    while words:
        word = words.pop(0)
        if word in switches:
            found[word] = True
        elif word in paths and words:
            found[word] = os.path.abspath(words.pop(0))
        elif word == "--seed" and with_seed and words and words[0].isdecimal():
            found[word] = int(words.pop(0))
        else:
            print(doc.split("\n\n")[1], file=sys.stderr)
            sys.exit(2)
    return found


def is_there(what, path=PATHS):
    """Whether there is a program, a file (a path or a pattern, which begin with `/`) or, of `import NAME`, a module of Debian's Python."""
    if what.startswith("import "):
        return subprocess.run([PYTHON, "-c", what], cwd="/", env={"PATH": PATHS}, capture_output=True).returncode == 0
    return bool(glob.glob(what)) if what.startswith("/") else shutil.which(what, path=path) is not None


def missing(packages, path=PATHS):
    """Of packages by what is looked for those that are missing."""
    return sorted({package for what, package in packages.items() if not is_there(what, path)})


def apt_install(*packages):
    """Installs packages; what comes of it is to be looked at."""
    command = ["apt-get", "install", "-y", "-qq", "--no-install-recommends", *packages]
    subprocess.run(command, env=dict(os.environ, DEBIAN_FRONTEND="noninteractive"), capture_output=True, timeout=1800)


def are_services_kept_off():
    """Whether a service that is installed is not started (invoke-rc.d, policy-rc.d: status 101)."""
    policy = "/usr/sbin/policy-rc.d"
    return os.access(policy, os.X_OK) and subprocess.run([policy, "krb5-kdc", "start"], capture_output=True).returncode == 101


def install(packages, *others, path=PATHS):
    """Installs what is missing, where services are kept off, and ends the script where some is missing still. Others are packages that may be."""
    wanted = [each for each in (missing(packages, path), *others) if each]
    if wanted and os.geteuid() == 0 and are_services_kept_off():
        subprocess.run(["apt-get", "update"], capture_output=True, timeout=600)
        for each in wanted:
            apt_install(*each)
    lacking = missing(packages, path)
    if lacking:
        print("%s: these packages are missing: %s" % (NAME, " ".join(lacking)), file=sys.stderr)
        sys.exit(2)


def unpacked(packages, root):
    """Downloads Debian's packages and unpacks them into a folder, since Debian keeps them apart from those of MIT; whether they could be had."""
    os.mkdir(root)
    done = subprocess.run(["apt-get", "download", "-qq", *packages], cwd=root, capture_output=True, timeout=300)
    for package in glob.glob(os.path.join(root, "*.deb")):
        subprocess.run(["dpkg", "-x", package, root], check=True)
    return done.returncode == 0


def prefix_of(options, folder):
    """Where the library is installed, which `bin/build-c` makes in a folder where none is given."""
    prefix = options["--library"] or os.path.join(folder, "built")
    if options["--library"] is None and subprocess.run([os.path.join(TOP, "bin", "build-c"), prefix]).returncode != 0:
        sys.exit(2)
    return prefix


def library_of(options, folder):
    """The library's file, by its own path or by that of the folder into which it is installed."""
    found = prefix_of(options, folder)
    return os.path.join(found, "lib", "libkrbc.so.2") if os.path.isdir(found) else found


def at_once(count, call):
    """What so many threads get of a call that they make at once."""
    got, barrier = [], threading.Barrier(count)

    def go():
        barrier.wait()
        got.append(call())

    threads = [threading.Thread(target=go) for _ in range(count)]
    for each in threads:
        each.start()
    for each in threads:
        each.join()
    return got


def with_library(environment, library):
    """An environment in which the package krb is found, and this library."""
    return dict(environment, PYTHONPATH=os.path.join(TOP, "python"), PYTHONDONTWRITEBYTECODE="1", KRBC_LIBRARY=library)


def module_of(name):
    """Another script of this folder, as a module."""
    loader = importlib.machinery.SourceFileLoader(name, os.path.join(TOP, "interop", name))
    module = importlib.util.module_from_spec(importlib.util.spec_from_loader(name, loader))
    loader.exec_module(module)
    return module
