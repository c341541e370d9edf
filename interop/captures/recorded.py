"""A realm of MIT Kerberos at the ports 88 and 464 of 127.0.0.1 and ::1, and what goes over the loopback interface, as a capture."""

import os
import signal
import subprocess
import time

from realm import REALM, Realm

TCP = "[libdefaults]\n udp_preference_limit = 1\n"


class RecordedRealm(Realm):
    """`realm.Realm` with the ports that a capture is searched for. It wants a network namespace of its own, where they are free."""

    def __init__(self, home):
        super().__init__(home)
        self.port = 88
        with open(self.path("krb5.conf"), encoding="ascii") as file:
            text = file.read().split("[realms]")[0]
        servers = "[realms]\n %s = {\n  kdc = %s:88\n  kpasswd_server = %s:464\n }\n[domain_realm]\n localhost = %s\n"
        for name, address in (("krb5.conf", "127.0.0.1"), ("krb5-6.conf", "[::1]")):
            self.write(name, text + servers % (REALM, address, address, REALM))
        self.write("tcp.conf", TCP)
        with open(self.path("kdc.conf"), encoding="ascii") as file:
            text = file.read().split("[realms]\n")[1]
        listen = "[kdcdefaults]\n kdc_listen = 127.0.0.1:88 [::1]:88\n kdc_tcp_listen = 127.0.0.1:88 [::1]:88\n[realms]\n"
        more = "  kadmind_listen = 127.0.0.1:749\n  kpasswd_listen = 127.0.0.1:464 [::1]:464\n}"
        self.write("kdc.conf", listen + text.replace("}", more))

    def begin(self):
        super().begin()
        self.admin("modprinc +requires_preauth ann", "addprinc -pw first +requires_preauth eve")
        self.admin("ktadd -norandkey -k %s krbtgt/%s" % (self.path("krbtgt.keytab"), REALM), "ktadd -norandkey -k %s ann" % self.path("ann.keytab"))
        self.admin("ktadd -norandkey -k %s ann HTTP/localhost krbtgt/%s kadmin/changepw" % (self.path("all.keytab"), REALM))
        self.start(["kadmind", "-nofork", "-P", self.path("kadmind.pid")], self.environment, 464)

    def by(self, transport, cache="captured"):
        """The environment of a client that goes by "udp", "tcp" or "udp6", and keeps its tickets in this cache."""
        files = {"udp": ["krb5.conf"], "tcp": ["tcp.conf", "krb5.conf"], "udp6": ["krb5-6.conf"], "tcp6": ["tcp.conf", "krb5-6.conf"]}[transport]
        paths = ":".join(map(self.path, files))
        return dict(self.environment, KRB5_CONFIG=paths, KRB5CCNAME="FILE:" + self.path(cache))

    def client(self, environment, *command, text=""):
        """A client that may fail: its status."""
        return subprocess.run(command, env=environment, input=text, capture_output=True, text=True, timeout=60).returncode


class Recording:
    """A capture of the loopback interface, while it is entered."""

    def __init__(self, path, words=()):
        self.path, self.words = path, list(words)

    def __enter__(self):
        command = ["tcpdump", "-i", "lo", "-U", "--immediate-mode", "-Z", "root", "-w", self.path, *self.words]
        self.process = subprocess.Popen(command, stdin=subprocess.DEVNULL, stdout=subprocess.DEVNULL, stderr=subprocess.PIPE, text=True)
        line = self.process.stderr.readline()
        if "listening" not in line:
            raise SystemExit("captures: tcpdump: %s" % line.strip())
        return self

    def __exit__(self, *_):
        size = -1
        while size != os.path.getsize(self.path):
            size = os.path.getsize(self.path)
            time.sleep(0.5)
        self.process.send_signal(signal.SIGINT)
        self.process.communicate(timeout=30)


def kerberos_of_mit(realm, transport):
    """What MIT's clients say and hear: an initial ticket with its password asked for, tickets for services, errors, a new password."""
    environment = realm.by(transport, "captured-" + transport)
    right = realm.client(environment, "kinit", "ann", text="a password\n") == 0
    right &= realm.client(environment, "kvno", "HTTP/localhost", "e19/localhost") == 0
    right &= realm.client(environment, "kvno", "nobody/localhost") != 0
    right &= realm.client(environment, "kinit", "ann", text="another password\n") != 0
    environment = realm.by(transport, "nobody")
    right &= realm.client(environment, "kinit", "nobody", text="a password\n") != 0
    old, new = ("first", "second") if not getattr(realm, "turned", False) else ("second", "first")
    realm.turned = not getattr(realm, "turned", False)
    right &= realm.client(environment, "kpasswd", "eve", text="%s\n%s\n%s\n" % (old, new, new)) == 0
    return right
