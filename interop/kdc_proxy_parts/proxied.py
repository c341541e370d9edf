"""A realm of MIT Kerberos on 127.0.0.1 in a folder of its own, its clients by way of a proxy alone, relays that keep what reaches its servers, and proxies."""

import http.client
import json
import os
import ssl

from realm import SUITES, Servers, defaults, free_port
from script import PATHS, PYTHON, with_library
from servers import Keeping, NameServer

HERE = os.path.dirname(os.path.abspath(__file__))
REALM = "PROXY.TEST"
LIMIT, SECONDS = 131072, 2  # how many octets the proxies take, and how long they wait for a server


class ProxiedRealm(Servers):
    """The KDC and the server of password changes; `kdc` and `kpasswd` are the relays before them."""

    def __init__(self, home):
        super().__init__(home, REALM, KRB5_CONFIG=os.path.join(home, "servers.conf"), KRB5RCACHEDIR=home)
        self.admin_port, self.password_port = free_port(), free_port()
        self.kdc, self.kpasswd = Keeping(self.port), Keeping(self.password_port)
        self.names = NameServer()
        # A server that is not named would take a fixed port below 1024.
        self.write_client("servers.conf")
        self.write_kdc("  kadmind_listen = 127.0.0.1:%d\n  kpasswd_listen = 127.0.0.1:%d\n" % (self.admin_port, self.password_port))

    def begin(self):
        """Makes the database, and starts the servers."""
        self.create()
        for number, name in SUITES.items():
            self.admin("addprinc -randkey -e %s:normal host/s%d.proxy.test" % (name, number))
        self.start_kdc()
        self.start(["kadmind", "-nofork"], self.environment, self.password_port)

    def add_user(self, name, etype, password):
        self.admin("addprinc +requires_preauth -e %s:normal -pw %s %s" % (SUITES[etype], password, name))

    def client(self, etype, name, port):
        """The environment of a client of this suite alone, which knows no server but the proxy at this port."""
        config, suite = "client-%d-%s.conf" % (etype, name), SUITES[etype]
        lines = "".join(" %s = %s\n" % (each, suite) for each in ("permitted_enctypes", "default_tkt_enctypes", "default_tgs_enctypes"))
        proxy = "https://localhost:%d/KdcProxy" % port
        realm = "[realms]\n %s = {\n  kdc = %s\n  kpasswd_server = %s\n  http_anchors = FILE:%s\n }\n" % (REALM, proxy, proxy, self.path("cert.pem"))
        self.write(config, defaults(REALM, lines) + realm)
        trace = {"KRB5_TRACE": self.path("trace-%d-%s" % (etype, name))}
        return dict(self.environment, KRB5_CONFIG=self.path(config), KRB5CCNAME="FILE:" + self.path("cache-%d-%s" % (etype, name)), **trace)

    def stop(self):
        super().stop()
        self.kdc.stop()
        self.kpasswd.stop()


class Proxy:
    """A proxy behind HTTPS, in a process of its own, and what it answered."""

    def __init__(
        self, realm, name, library, any_target_domain=False, seconds=SECONDS, use_dns="false", kdc=None
    ):
        self.realm, self.name, self.port = realm, name, free_port()
        own = "\n".join(["[proxy]", "limit = %d" % LIMIT, "seconds = %s" % seconds, "any_target_domain = %s" % ("yes" if any_target_domain else "no"), ""])
        servers = {"kdc": realm.kdc.port, "kpasswd": realm.kpasswd.port}
        names = [REALM] + (["SHORT"] if any_target_domain else [])
        before = "127.0.0.1:%d " % free_port() if any_target_domain else ""  # a server that is down
        realms = "".join("[%s]\n%s" % (name, "".join("%s = %s127.0.0.1:%d\n" % (service, before, port) for service, port in servers.items())) for name in names)
        if kdc:
            realms = "[%s]\nkdc = %s\n" % (REALM, kdc)
        realm.write("kdc_proxy-%d.conf" % self.port, own + realms)
        uris = "".join("[%s]\nkerberos = kerberos+tcp://127.0.0.1:%d\nkpasswd = kpasswd+tcp://127.0.0.1:%d\n" % (name, *servers.values()) for name in names)
        realm.write("kdcproxy-%d.conf" % self.port, "[global]\nuse_dns = %s\n" % use_dns + uris)
        environment = {
            **with_library({"PATH": PATHS}, library),
            "HOME": realm.home,
            "KDC_PROXY_CONFIG": realm.path("kdc_proxy-%d.conf" % self.port),
            "KDCPROXY_CONFIG": realm.path("kdcproxy-%d.conf" % self.port),
            "KDC_PROXY_ANY_TARGET_DOMAIN": "yes" if any_target_domain else "no",
            "NAME_SERVER": str(realm.names.port),
        }
        self.context = ssl.create_default_context(cafile=realm.path("cert.pem"))
        realm.start([PYTHON, os.path.join(HERE, "serve.py"), name, str(self.port), realm.home], environment, self.port)

    def post(self, octets, method="POST", length=None, kind="application/kerberos"):
        """The status and the body that are answered to these octets; keeps the headers."""
        link = http.client.HTTPSConnection("127.0.0.1", self.port, timeout=60, context=self.context)
        try:
            link.putrequest(method, "/KdcProxy")
            if kind is not None:
                link.putheader("Content-Type", kind)
            if length is not False:
                link.putheader("Content-Length", str(len(octets)) if length is None else length)
            link.endheaders(octets)
            answer = link.getresponse()
            self.headers = answer.headers
            return answer.status, answer.read()
        finally:
            link.close()

    def records(self):
        try:
            with open(self.realm.path("record-%d" % self.port), encoding="ascii") as file:
                return [json.loads(line) for line in file]
        except FileNotFoundError:
            return []
