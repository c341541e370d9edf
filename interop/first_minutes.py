"""Types what docs/FIRST_TEN_MINUTES.md has into a Debian that has nothing else, and compares what is printed.

The Debian is a folder of debootstrap's minbase with the /etc/hosts that its installer writes. The packages are in /root/packages, where the first lines are typed. The lines of a part are typed into one
bash, in the home of root, with the variables of a login and no others; lines that begin with `apt` have the network and the rest a loopback alone. What stands behind `cat` of a file that is not there is
written to it; a program that asks for a password is told that of the realm. A line that ends in `..` is the beginning of what is printed; alone, it is anything."""

import os
import re
import sys
import tempfile

sys.dont_write_bytecode = True
from debian import Folder, must, run
from script import TOP

PAGE = os.path.join(TOP, "docs", "FIRST_TEN_MINUTES.md")
PACKAGES = "/root/packages"
NAMES = ("jolmurig", "libkrbc-dev", "libkrbc2", "python3-krb")
# What a login has.
LOGIN = {"PATH": "/usr/local/sbin:/usr/local/bin:/usr/sbin:/usr/bin:/sbin:/bin", "HOME": "/root", "USER": "root", "LOGNAME": "root", "SHELL": "/bin/bash", "LANG": "C.UTF-8"}
HOSTS = b"127.0.0.1\tlocalhost\n127.0.1.1\tdebian\n::1\tlocalhost ip6-localhost ip6-loopback\n"
MARK = "\x1e"
# Waits until one socket more listens, a minute at most, so that a slow machine is none that fails.
LISTENS = "for _ in {1..600}; do [ $(grep -c ' 0A ' /proc/net/tcp) -gt $listening ] && break; sleep 0.1; done; true"
PASSWORD = "a password"  # of examples/realm


def parts():
    """The title of each part, and its commands with what is printed behind each."""
    with open(PAGE, encoding="utf-8") as page:
        for section in re.split("^##? ", page.read(), flags=re.MULTILINE)[1:]:
            title, _, text = section.partition("\n")
            blocks = re.findall(r"(?:^(?:    .*|)\n)+", text, re.MULTILINE)
            lines = [line[4:] for block in blocks if "    $ " in block for line in block.strip("\n").split("\n")]
            commands = []
            for line in lines:
                if line.startswith("$ "):
                    commands.append((line[2:], []))
                else:
                    commands[-1][1].append(line)
            if commands:
                yield title, commands


def is_same(printed, wanted):
    """Whether lines are those of the page. Blank lines at an end are none."""
    while printed and not printed[-1].strip():
        printed = printed[:-1]
    while wanted and not wanted[-1].strip():
        wanted = wanted[:-1]
    if wanted == [".."]:
        return True
    fits = len(printed) == len(wanted) or (wanted and wanted[-1] == ".." and len(printed) >= len(wanted))
    return fits and all(line.rstrip() == want.rstrip() or (want.endswith("..") and line.startswith(want[:-2])) for line, want in zip(printed, wanted))


def typed(folder, commands, network):
    """What each command prints, as lines, and its status."""
    script, answer = [], "/tmp/answer"
    folder.put((PASSWORD + "\n").encode("ascii"), answer)
    for command, wanted in commands:
        found = re.fullmatch(r"cat (\S+)", command)
        if found:
            text = "\n".join(wanted).rstrip("\n")
            script.append("[ -e %s ] || cat >%s <<'%s'\n%s\n%s\n" % (found[1], found[1], MARK, text, MARK))
        # A server behind `&` is there before the person types on.
        line = "%s\n%s" % (command, LISTENS) if command.endswith("&") else "{ %s\n} <%s" % (command, answer)
        script.append("listening=$(grep -c ' 0A ' /proc/net/tcp)\nprintf '%s\\n'\n%s\nprintf '%s%%s\\n' $?\n" % (MARK, line, MARK))
    script.append("kill $(jobs -p) 2>/dev/null\nwait\n")
    folder.put("".join(script).encode("utf-8"), "/tmp/script")
    where = PACKAGES if network else "/root"
    done = folder.run("bash", "-c", "cd %s && exec bash /tmp/script 2>&1" % where, network=network, env=LOGIN)
    told = done.stdout.decode("utf-8", "replace").split(MARK)
    return [(printed.split("\n")[1:-1], status.split("\n")[0]) for printed, status in zip(told[1::2], told[2::2])]


def judge(title, commands, told):
    """The title of each check, and what is wrong; None where nothing is. What `cat` shows of a file of the page is none."""
    for (command, wanted), (lines, status) in zip(commands, told):
        if re.fullmatch(r"cat \S+", command):
            continue
        wrong = None if is_same(lines, wanted) else "prints %s" % lines
        if command.startswith("apt ") and status != "0":
            wrong = "status %s: %s" % (status, "\n".join(lines)[-600:])
        yield "%s: %s" % (title, command[:90]), wrong
    if len(told) != len(commands):
        yield title, "ended at command %d of %d" % (len(told), len(commands))


def checks(packages, bare):
    """The title of each check of the page, and what is wrong; None where nothing is. `packages` is the folder of the packages, `bare` a tar of debootstrap's folder, or None."""
    with tempfile.TemporaryDirectory() as home:
        folder = Folder(os.path.join(home, "debian"), bare)
        folder.put(HOSTS, "/etc/hosts")
        os.mkdir(folder.at + PACKAGES)
        for name in os.listdir(packages):
            if name.endswith(".deb"):
                must(run("cp", os.path.join(packages, name), folder.at + PACKAGES))
        for title, commands in parts():
            for with_network in (True, False):
                chosen = [each for each in commands if each[0].startswith("apt ") == with_network]
                yield from judge(title, chosen, typed(folder, chosen, with_network) if chosen else [])
