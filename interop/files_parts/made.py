"""A realm of MIT Kerberos, and its keytabs and caches."""

import time

from judges import SUITES
from klist import ETYPES
from jolmurig import Failed
from realm import Servers

REALM, PASSWORD = "LAB.EXAMPLE", "a password"
TGS, WEB = "krbtgt/%s@%s" % (REALM, REALM), "HTTP/web.lab.example@" + REALM
PASSWORD_SERVICES = ["HTTP/%s.lab.example" % name for name in SUITES.values()]
WEB_ETYPES = [18, 17, 20, 19]
OTHER_ETYPES = ["des3-cbc-sha1", "aes128-cts-hmac-sha1-96", "aes128-cts-hmac-sha256-128", "aes256-cts-hmac-sha384-192", "arcfour-hmac", "camellia256-cts-cmac"]
PASSWORDS = "services whose keys are of a password"


class ShownRealm(Servers):
    """A realm with a KDC, in a directory."""

    failure, seconds = Failed, 120

    def __init__(self, directory):
        super().__init__(directory, REALM, KRB5RCACHENAME="none:", TZ="UTC", LC_ALL="C")

    def run(self, *command, text="", **environment):
        return super().run(*command, text=text, environment={**self.environment, **environment})

    def admin(self, *words):
        """A command of kadmin.local, whose status says nothing of some errors."""
        return self.run("kadmin.local", *words)

    def make(self):
        etypes = " permitted_enctypes = %s\n" % " ".join(name for name in ETYPES if name != "arcfour-hmac-md5")
        self.write_client(more=" allow_weak_crypto = true\n allow_des3 = true\n allow_rc4 = true\n" + etypes)
        self.write("version3.conf", "[libdefaults]\nccache_type = 3\n")
        self.write("addresses.conf", "[libdefaults]\nnoaddresses = false\nextra_addresses = 192.0.2.77\n")
        self.write_kdc("  max_life = 24h\n  max_renewable_life = 7d\n", suites=[SUITES[number] for number in WEB_ETYPES])
        self.create()

    def keytab(self, name, *principals, options=("-norandkey",)):
        self.admin("ktadd", *options, "-k", self.path(name), *principals)
        return self.path(name)

    def kinit(self, cache, user, *options, **environment):
        self.run("kinit", "-c", self.path(cache), *options, user, text=PASSWORD + "\n", **environment)
        return self.path(cache)


def make_principals(realm):
    for user, options in {"alice": [], "s\u00fcd": ["+requires_preauth"], "bob\\/x\\@y\\\\z": []}.items():
        realm.admin("addprinc", "-pw", PASSWORD, *options, user)
    realm.admin("addprinc", "-randkey", WEB)
    for name in OTHER_ETYPES:
        realm.admin("addprinc", "-randkey", "-e", name + ":normal", "host/" + name)
    for service, name in zip(PASSWORD_SERVICES, SUITES.values()):
        realm.admin("addprinc", "-pw", PASSWORD, "-e", name.removesuffix("-kd") + ":normal", service)
    realm.admin("modprinc", "+ok_as_delegate", "host/des3-cbc-sha1")
    realm.admin("modprinc", "-kvno", "300", "host/des3-cbc-sha1")


def make_keytabs(realm):
    """Paths of keytabs by titles. The first has the service's keys of two versions; the last three have one of each kind and the TGS's."""
    keytabs = {"kadmin, two versions": realm.keytab("web.keytab", WEB)}
    others = ["host/" + name for name in OTHER_ETYPES]
    keytabs["kadmin, each encryption type"] = realm.keytab("host.keytab", *others)
    keytabs["kadmin, the TGS"] = realm.keytab("tgs.keytab", TGS)
    keytabs["kadmin, odd names"] = realm.keytab("odd.keytab", "s\u00fcd", "bob\\/x\\@y\\\\z")
    realm.keytab("removed.keytab", "s\u00fcd", *others)
    realm.admin("ktremove", "-k", realm.path("removed.keytab"), "s\u00fcd")
    keytabs["kadmin, entries removed"] = realm.path("removed.keytab")
    lines = ["addent -password -p bob -k %d -e %s\n%s" % (kvno, name, PASSWORD) for kvno, name in [(7, SUITES[18]), (300, SUITES[19]), (65536, SUITES[17])]]
    realm.run("ktutil", text="\n".join(lines + ["wkt " + realm.path("ktutil.keytab"), "quit", ""]))
    keytabs["ktutil"] = realm.path("ktutil.keytab")
    return keytabs


def make_caches(realm):
    """Paths of caches by titles, and the version of the key of each ticket of a service, as kvno says it."""
    caches, versions = {}, {}

    def take(title, cache, *arguments):
        caches[title] = cache
        versions.setdefault(title, {}).update(realm.kvno(cache, *arguments) if arguments else {})

    take("forwardable and renewable", realm.kinit("one", "alice", "-f", "-p", "-r", "2d"), WEB)
    realm.keytab("web.keytab", WEB, options=())
    hosts = ["host/" + name for name in OTHER_ETYPES]
    take("forwardable and renewable", realm.path("one"), *hosts)
    take("the key's second version", realm.kinit("two", "alice", "-l", "2h"), WEB)
    take("another session key", realm.kinit("session", "alice"), "-e", SUITES[19], WEB)
    take(PASSWORDS, realm.kinit("passwords", "alice"), *PASSWORD_SERVICES)
    take("initial for a service", realm.kinit("initial", "alice", "-S", WEB))
    take("postdated", realm.kinit("postdated", "s\u00fcd", "-s", "1h", "-l", "2h"))
    take("pre-authenticated", realm.kinit("preauth", "s\u00fcd"), WEB)
    take("a name with separators", realm.kinit("odd", "bob\\/x\\@y\\\\z"))  # MIT's KDC takes no such name from the PAC, and refuses tickets of services.
    both = "%s:%s"
    config = realm.environment["KRB5_CONFIG"]
    take("version 3", realm.kinit("version3", "alice", "-r", "1d", KRB5_CONFIG=both % (realm.path("version3.conf"), config)), WEB)
    take("addresses", realm.kinit("addresses", "alice", "-a", KRB5_CONFIG=both % (realm.path("addresses.conf"), config)))
    realm.run("kinit", "-c", realm.path("s4u"), "-k", "-t", realm.path("web.keytab"), WEB)
    take("S4U2self", realm.path("s4u"), "-U", "alice", WEB)
    take("user to user", realm.kinit("u2u", "alice"), "--u2u", "FILE:" + realm.path("u2u"), "alice")
    realm.kinit("renewed", "alice", "-r", "2d")
    time.sleep(1.1)
    realm.run("kinit", "-c", realm.path("renewed"), "-R")
    take("renewed", realm.path("renewed"), WEB)
    return caches, versions
