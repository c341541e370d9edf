"""Realms of MIT Kerberos on 127.0.0.1, each in a folder of its own."""

import os
import re
import socket
import subprocess
import time

from checks import NAME
from script import PATHS

REALM, PASSWORD = "HOME.TEST", "a password"
SUITES = {17: "aes128-cts-hmac-sha1-96", 18: "aes256-cts-hmac-sha1-96", 19: "aes128-cts-hmac-sha256-128", 20: "aes256-cts-hmac-sha384-192"}
# A client of a name with octets that are quoted in texts of names. (MIT's KDC 1.20 reads its own PAC of such a client otherwise, and gives it tickets in the AS
# exchange alone.)
QUOTED = ("a/b", "c@d\\e")


def free_port():
    with socket.socket() as probe:
        probe.bind(("127.0.0.1", 0))
        return probe.getsockname()[1]


def defaults(realm, more=""):
    """The first section of a krb5.conf, and lines of its own."""
    lines = " dns_lookup_kdc = false\n dns_lookup_realm = false\n dns_canonicalize_hostname = false\n rdns = false\n"
    return "[libdefaults]\n default_realm = %s\n%s%s" % (realm, lines, more)


class Servers:
    """The files of a realm in a folder, commands that run with them, and servers that are started and end with it; its KDC is to have the port `port`. In a
    `with` statement `begin` is called, and `stop` at its end."""

    failure, seconds = SystemExit, 60  # what is raised where a command fails, and how long one may take

    def __init__(self, home, name, **environment):
        self.home, self.name, self.processes, self.port = home, name, [], free_port()
        own = {"PATH": PATHS, "HOME": home, "KRB5_CONFIG": self.path("krb5.conf"), "KRB5_KDC_PROFILE": self.path("kdc.conf"), "LC_ALL": "C.UTF-8"}
        self.environment = {**own, **environment}

    def __enter__(self):
        try:
            self.begin()
        except BaseException:
            self.stop()
            raise
        return self

    def __exit__(self, *_):
        self.stop()

    def path(self, name):
        return os.path.join(self.home, name)

    def write(self, name, text):
        with open(self.path(name), "w", encoding="utf-8") as file:
            file.write(text)
        return self.path(name)

    def write_client(self, name="krb5.conf", more="", behind="", port=None):
        """The configuration of a client that knows the KDC at its port or another one, with lines of the first section and behind the realm's."""
        return self.write(name, defaults(self.name, more) + "[realms]\n %s = {\n  kdc = 127.0.0.1:%d\n }\n%s" % (self.name, port or self.port, behind))

    def write_kdc(self, lines="", others=(), suites=tuple(reversed(SUITES.values()))):
        """The configuration of the KDC, with lines of the realm, and of other realms that it has; nobody may administer it from elsewhere."""
        own = "  database_name = {0}/{1}\n  key_stash_file = {0}/stash-{1}\n  acl_file = {0}/acl\n  supported_enctypes = {2}\n"
        text = "[kdcdefaults]\n kdc_listen = 127.0.0.1:{0}\n kdc_tcp_listen = 127.0.0.1:{0}\n[realms]\n".format(self.port)
        for realm, more in ((self.name, lines), *others):
            text += " %s = {\n%s%s }\n" % (realm, own.format(self.home, realm, " ".join(suite + ":normal" for suite in suites)), more)
        self.write("kdc.conf", text)
        self.write("acl", "")

    def run(self, *command, text="", environment=None):
        words = {"input": text, "capture_output": True, "encoding": "utf-8", "timeout": self.seconds, "cwd": self.home}
        done = subprocess.run(command, env=environment or self.environment, **words)
        if done.returncode != 0:
            raise self.failure("%s: %s: status %d, %s" % (NAME, " ".join(command), done.returncode, (done.stderr or done.stdout).strip()))
        return done.stdout

    def admin(self, *queries):
        for query in queries:
            self.run("kadmin.local", "-r", self.name, "-q", query)

    def kvno(self, cache, *arguments):
        """Takes tickets of services into a cache, and has the versions of their keys."""
        lines = self.run("kvno", "-c", "FILE:" + cache, *arguments).split("\n")
        return dict(line.rsplit(": kvno = ", 1) for line in lines if line)

    def create(self):
        self.run("kdb5_util", "create", "-s", "-r", self.name, "-P", "master")

    def certificate(self):
        """A certificate for localhost, with its key beside it in key.pem."""
        words = "openssl req -x509 -newkey rsa:2048 -sha256 -nodes -days 2 -subj /CN=localhost -addext subjectAltName=DNS:localhost,IP:127.0.0.1".split()
        self.run(*words, "-keyout", self.path("key.pem"), "-out", self.path("cert.pem"))
        return self.path("cert.pem")

    def start(self, command, environment, port):
        """Starts a server, and waits until it listens."""
        with open(self.path("servers.log"), "ab") as log:
            process = subprocess.Popen(command, env=environment, cwd=self.home, stdout=log, stderr=log, stdin=subprocess.DEVNULL)
        self.processes.append(process)
        for _ in range(600):
            try:
                socket.create_connection(("127.0.0.1", port), 1).close()
                return process
            except OSError:
                if process.poll() is not None:
                    break
                time.sleep(0.05)
        raise self.failure("%s: %s does not listen:\n%s" % (NAME, " ".join(command), self.log()))

    def start_kdc(self, *words):
        self.start(["krb5kdc", "-n", *words], self.environment, self.port)

    def log(self):
        with open(self.path("servers.log"), encoding="utf-8", errors="replace") as log:
            return log.read()[-3000:]

    def stop(self):
        for process in self.processes:
            process.terminate()
        for process in self.processes:
            try:
                process.wait(20)
            except subprocess.TimeoutExpired:
                process.kill()
                process.wait()


class Realm(Servers):
    """Users and services of each suite; `keytab` has the keys of all services: e17 to e20 of one suite each, and HTTP/localhost of all."""

    def __init__(self, home):
        cache = os.path.join(home, "cache")
        super().__init__(home, REALM, KRB5CCNAME="FILE:" + cache, KRB5RCACHENAME="none:", TZ="UTC")
        self.keytab, self.cache = self.path("keytab"), cache
        self.write_client(more=" forwardable = true\n", behind="[domain_realm]\n localhost = %s\n" % REALM)
        self.write_kdc("  max_renewable_life = 2d\n")

    def begin(self):
        """Makes the database and the keytab, starts the KDC, and gets the user's ticket-granting ticket."""
        self.create()
        self.add_services()
        self.admin("addprinc -pw \"%s\" ann" % PASSWORD, "addprinc -pw \"%s\" bob" % PASSWORD)
        self.admin("addprinc -pw \"%s\" \"%s\"" % (PASSWORD, self.quoted_name()))
        self.start_kdc()
        self.kinit("ann")

    def add_services(self):
        for number, suite in SUITES.items():
            service = "e%d/localhost" % number
            self.admin("addprinc -randkey -e %s:normal %s" % (suite, service), "setstr %s session_enctypes %s" % (service, suite))
            self.admin("ktadd -norandkey -k %s %s" % (self.keytab, service))
        self.admin("addprinc -randkey HTTP/localhost", "ktadd -norandkey -k %s HTTP/localhost" % self.keytab)

    @staticmethod
    def quoted_name():
        return "/".join(re.sub(r"([/@\\])", r"\\\1", each) for each in QUOTED)

    def kinit(self, user, *words, cache=None):
        environment = dict(self.environment, **({"KRB5CCNAME": "FILE:" + cache} if cache else {}))
        self.run("kinit", *words, user, text=PASSWORD + "\n", environment=environment)

    def end_of(self, server):
        """The end of the user's ticket for a server, as klist has it."""
        listed = self.run("klist")
        found = re.search(r"^\S+ \S+  (\d+/\d+/\d+ \d+:\d+:\d+)  %s@" % re.escape(server), listed, re.MULTILINE)
        form = "%m/%d/%y %H:%M:%S" if len(found[1].split()[0]) == 8 else "%m/%d/%Y %H:%M:%S"
        return time.strptime(found[1], form)[:6]
