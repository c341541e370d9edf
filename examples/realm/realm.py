#!/usr/bin/env python3
"""A realm of MIT Kerberos on 127.0.0.1, to try things with: HOME.TEST, in a folder of its own.

usage: realm.py start [--port N] [--folder FOLDER]    starts it; prints lines for the shell: eval "$(realm.py start)"
       realm.py run [--port N] [--folder FOLDER]      the same, and stays until Ctrl+C
       realm.py stop [FOLDER]                         ends it, and removes its folder; without FOLDER that of $KERBEROS_REALM

It needs Debian's krb5-kdc, krb5-admin-server and krb5-user, and no root. The KDC has the port N of 127.0.0.1 (18088) over UDP and TCP, what changes passwords N + 376 (18464), so
that 88 gives 88 and 464, which root alone may have. FOLDER is one that is not there yet, else a temporary one; it has krb5.conf, kdc.conf, the database and kdc.log.

The users ann, bob and carol have the password `a password`. HTTP/www.home.test is a service, whose keys are in FOLDER/www.keytab. The variables that are printed have
kinit, klist, kvno, kpasswd, kadmin.local and what else is of MIT Kerberos go to this realm, and keep tickets in FOLDER/tickets.
"""

import argparse
import fcntl
import os
import shlex
import shutil
import signal
import socket
import subprocess
import sys
import tempfile
import time

REALM, PASSWORD = "HOME.TEST", "a password"
USERS, SERVICE = ("ann", "bob", "carol"), "HTTP/www.home.test"
NEEDED = {"krb5kdc": "krb5-kdc", "kdb5_util": "krb5-kdc", "kadmind": "krb5-admin-server", "kadmin.local": "krb5-admin-server", "kinit": "krb5-user"}
PATHS = "/usr/sbin:/sbin"  # Debian's servers are there, which is not on each user's path
PORT, BETWEEN, ADMINISTRATION = 18088, 376, 661  # 88, 464 and 749
CLIENT = """[libdefaults]
 default_realm = {realm}
 dns_lookup_kdc = false
 dns_lookup_realm = false
 dns_canonicalize_hostname = false
 rdns = false
[realms]
 {realm} = {{
  kdc = 127.0.0.1:{port}
  kpasswd_server = 127.0.0.1:{password_port}
 }}
[domain_realm]
 localhost = {realm}
 .home.test = {realm}
[logging]
 kdc = FILE:{folder}/kdc.log
 admin_server = FILE:{folder}/kadmin.log
"""
SERVER = """[kdcdefaults]
 kdc_listen = 127.0.0.1:{port}
 kdc_tcp_listen = 127.0.0.1:{port}
[realms]
 {realm} = {{
  database_name = {folder}/principals
  key_stash_file = {folder}/stash
  acl_file = {folder}/acl
  kadmind_listen = 127.0.0.1:{administration}
  kpasswd_listen = 127.0.0.1:{password_port}
  max_renewable_life = 7d
  supported_enctypes = aes256-cts-hmac-sha1-96:normal aes128-cts-hmac-sha1-96:normal aes256-cts-hmac-sha384-192:normal aes128-cts-hmac-sha256-128:normal
  default_principal_flags = +preauth
 }}
"""


class Failed(Exception):
    """What is told in a line."""


def variables(folder):
    """The variables by which programs of MIT Kerberos go to this realm."""
    return {
        "KERBEROS_REALM": folder, "KRB5_CONFIG": folder + "/krb5.conf", "KRB5_KDC_PROFILE": folder + "/kdc.conf", "KRB5CCNAME": "FILE:%s/tickets" % folder,
    }


def lines(folder):
    """The same for a shell, with the folder of Debian's servers on the path."""
    words = ["export %s=%s" % (name, shlex.quote(value)) for name, value in variables(folder).items()]
    return "\n".join([*words, 'case ":$PATH:" in *:/usr/sbin:*) ;; *) export PATH="$PATH:%s" ;; esac' % PATHS])


def environment(folder):
    path = "%s:%s" % (os.environ.get("PATH", "/usr/bin:/bin"), PATHS)
    return {**os.environ, **variables(folder), "PATH": path, "LC_ALL": "C.UTF-8"}


def check(port):
    """Ends where a package is missing, or where a port is another's."""
    path = environment("")["PATH"]
    lacking = sorted({package for program, package in NEEDED.items() if shutil.which(program, path=path) is None})
    if lacking:
        raise Failed("Debian's %s %s missing: apt install %s" % (", ".join(lacking), "is" if len(lacking) == 1 else "are", " ".join(lacking)))
    for each in (port, port + BETWEEN, port + ADMINISTRATION):
        with socket.socket() as probe:
            probe.setsockopt(socket.SOL_SOCKET, socket.SO_REUSEADDR, 1)
            try:
                probe.bind(("127.0.0.1", each))
            except OSError as error:
                raise Failed("the port %d of 127.0.0.1: %s; --port N takes others" % (each, error.strerror)) from None


def run(folder, *command):
    done = subprocess.run(command, env=environment(folder), stdin=subprocess.DEVNULL, capture_output=True, text=True, check=False)
    if done.returncode != 0:
        raise Failed("%s: %s" % (command[0], (done.stderr or done.stdout).strip().split("\n")[-1]))


def make(folder, port):
    """The files, the database, and who is in it."""
    facts = {"realm": REALM, "folder": folder, "port": port, "password_port": port + BETWEEN, "administration": port + ADMINISTRATION}
    for name, text in (("krb5.conf", CLIENT.format(**facts)), ("kdc.conf", SERVER.format(**facts)), ("acl", "")):
        with open(os.path.join(folder, name), "w", encoding="ascii") as file:
            file.write(text)
    run(folder, "kdb5_util", "create", "-s", "-r", REALM, "-P", os.urandom(16).hex())
    for user in USERS:
        run(folder, "kadmin.local", "-q", 'addprinc -pw "%s" %s' % (PASSWORD, user))
    run(folder, "kadmin.local", "-q", "addprinc -randkey " + SERVICE)
    run(folder, "kadmin.local", "-q", "ktadd -norandkey -k %s/www.keytab %s" % (folder, SERVICE))


def serve(folder, port):
    """The servers, once they listen."""
    started = []
    try:
        for command, its_port in ((["krb5kdc", "-n"], port), (["kadmind", "-nofork"], port + BETWEEN)):
            with open(os.path.join(folder, command[0] + ".said"), "wb") as said:
                process = subprocess.Popen(command, env=environment(folder), cwd=folder, stdin=subprocess.DEVNULL, stdout=said, stderr=said, start_new_session=True)
            started.append(process)
            end = time.monotonic() + 20
            while True:
                try:
                    socket.create_connection(("127.0.0.1", its_port), 1).close()
                    break
                except OSError:
                    if process.poll() is not None or time.monotonic() > end:
                        with open(os.path.join(folder, command[0] + ".said"), encoding="utf-8", errors="replace") as said:
                            raise Failed("%s does not listen: %s" % (command[0], said.read().strip().split("\n")[-1])) from None
                    time.sleep(0.05)
    except BaseException:
        end_all(started)
        raise
    return started


def end_all(started):
    for process in started:
        process.terminate()
    for process in started:
        try:
            process.wait(10)
        except subprocess.TimeoutExpired:
            process.kill()
            process.wait()


def new_folder(named):
    if named is None:
        return tempfile.mkdtemp(prefix="realm.")
    try:
        os.mkdir(named, 0o700)
    except OSError as error:
        raise Failed("%s: %s" % (named, error.strerror)) from None
    return os.path.abspath(named)


def keep(folder, port, ready):
    """Runs the realm until this process is told to end; `ready` is called once it is there."""
    for number in (signal.SIGTERM, signal.SIGHUP, signal.SIGINT):
        signal.signal(number, lambda *_: sys.exit(0))
    started = []
    try:
        # (who has the lock of this file is the process to end)
        lock = open(os.path.join(folder, "process"), "w", encoding="ascii")
        fcntl.flock(lock, fcntl.LOCK_EX)
        lock.write("%d\n" % os.getpid())
        lock.flush()
        make(folder, port)
        started = serve(folder, port)
        ready()
        while all(process.poll() is None for process in started):
            time.sleep(0.2)
        raise Failed("a server of the realm ended: %s" % folder)
    finally:
        end_all(started)
        shutil.rmtree(folder, ignore_errors=True)


def start(folder, port):
    """Has another process keep the realm, and returns once it is there."""
    reading, writing = os.pipe()
    child = os.fork()
    if child == 0:
        os.setsid()
        os.close(reading)
        null = os.open(os.devnull, os.O_RDWR)
        for number in (0, 1, 2):
            os.dup2(null, number)
        why = b"it ended"
        try:
            keep(folder, port, lambda: (os.write(writing, b"ready"), os.close(writing)))
        except Failed as failed:
            why = str(failed).encode("utf-8", "replace")
        except SystemExit:
            os._exit(0)
        try:
            os.write(writing, why)
        except OSError:
            pass
        os._exit(1)
    os.close(writing)
    told = b""
    while True:
        part = os.read(reading, 4096)
        if not part:
            break
        told += part
    if told != b"ready":
        raise Failed(told.decode("utf-8", "replace"))


def stop(folder):
    if not folder:
        raise Failed("no FOLDER, and no $KERBEROS_REALM: no realm is known here")
    try:
        with open(os.path.join(folder, "process"), encoding="ascii") as file:
            try:
                fcntl.flock(file, fcntl.LOCK_EX | fcntl.LOCK_NB)
            except BlockingIOError:
                os.kill(int(file.read()), signal.SIGTERM)
                fcntl.flock(file, fcntl.LOCK_EX)
                return
    except OSError as error:
        raise Failed("%s: no realm is there: %s" % (folder, error.strerror)) from None
    shutil.rmtree(folder)


def main():
    parser = argparse.ArgumentParser(description=__doc__, formatter_class=argparse.RawDescriptionHelpFormatter, usage=argparse.SUPPRESS)
    commands = parser.add_subparsers(dest="command", required=True, metavar="start|run|stop")
    for name in ("start", "run"):
        added = commands.add_parser(name)
        added.add_argument("--port", type=int, default=PORT, metavar="N")
        added.add_argument("--folder", metavar="FOLDER")
    commands.add_parser("stop").add_argument("folder", nargs="?", metavar="FOLDER")
    options = parser.parse_args()
    try:
        if options.command == "stop":
            stop(options.folder or os.environ.get("KERBEROS_REALM"))
            return 0
        if not 0 < options.port < 65536 - ADMINISTRATION:
            raise Failed("--port %d: no port of three" % options.port)
        check(options.port)
        folder = new_folder(options.folder)
        if options.command == "start":
            start(folder, options.port)
            print(lines(folder))
        else:
            keep(folder, options.port, lambda: print(lines(folder) + "\n# Ctrl+C ends it", flush=True))
    except Failed as failed:
        print("realm: %s" % failed, file=sys.stderr)
        return 1
    return 0


if __name__ == "__main__":
    sys.exit(main())
