"""Two realms of MIT Kerberos on 127.0.0.1, of one KDC: the clients' own one, and one that it refers to."""

import subprocess

from realm import PASSWORD, REALM, SUITES, Realm, free_port

OTHER = "OTHER.TEST"
OWN = " udp_preference_limit = 1\n"
BEHIND = " %s = {{\n  kdc = 127.0.0.1:{0}\n }}\n[domain_realm]\n localhost = %s\n www.other.test = %s\n" % (OTHER, REALM, OTHER)
# Users without a ticket, by what the KDC is told of them, and the error that it reports (RFC 4120, 7.5.9).
REFUSED = {"late": ("-expire \"2020-01-01 00:00:00\"", 1), "locked": ("-allow_tix", 18), "stale": ("-pwexpire \"2020-01-01 00:00:00\"", 23)}


class Home(Realm):
    """`users` is a keytab of users: u17 to u20 of one suite each, whose time the KDC asks for under their key, f17 to f20, whose it does not ask for, and ann of all suites.
    `granting` is one of the ticket-granting services, and `wrong` one with another key of ann's. At `password_port` passwords are changed, as that of the user changing."""

    def __init__(self, home):
        super().__init__(home)
        self.users, self.granting, self.wrong, self.other_keytab = map(self.path, ("users", "granting", "wrong", "other-keytab"))
        self.environment["KRB5_KTNAME"] = "FILE:" + self.keytab
        self.client_config(self.port, "krb5.conf")
        self.password_port, lines = free_port(), "  max_renewable_life = 2d\n"
        admin = "  kadmind_listen = 127.0.0.1:%d\n  kpasswd_listen = 127.0.0.1:%d\n" % (free_port(), self.password_port)
        self.write_kdc(lines + admin, [(OTHER, lines)])
        self.kdc = "tcp/127.0.0.1:%d" % self.port

    def begin(self):
        """Makes both databases and the keytabs, and starts the KDC."""
        for realm in (REALM, OTHER):
            self.run("kdb5_util", "create", "-s", "-r", realm, "-P", "master")
            for target in (REALM, OTHER):
                if target != realm:
                    self.of(realm, 'addprinc -pw "the key of both" krbtgt/%s@%s' % (target, realm))
        self.of(OTHER, 'addprinc -pw "the key of both" krbtgt/%s@%s' % (OTHER, REALM), 'addprinc -pw "the key of both" krbtgt/%s@%s' % (REALM, OTHER), quiet=True)
        self.of(REALM, 'addprinc -pw "the key of both" krbtgt/%s@%s' % (REALM, OTHER), quiet=True)
        self.of(OTHER, "addprinc -randkey HTTP/www.other.test", "ktadd -norandkey -k %s HTTP/www.other.test" % self.other_keytab)
        self.add_services()
        for number, suite in SUITES.items():
            for user, more in (("u%d" % number, "+requires_preauth"), ("f%d" % number, "")):
                self.admin('addprinc -pw "%s" %s -e %s:normal %s' % (PASSWORD, more, suite, user), "ktadd -norandkey -k %s %s" % (self.users, user))
        self.admin('addprinc -pw "%s" +requires_preauth ann' % PASSWORD, "ktadd -norandkey -k %s ann" % self.users)
        self.admin('addprinc -pw "%s" bob' % PASSWORD, 'addprinc -pw "%s" "%s"' % (PASSWORD, self.quoted_name()))
        self.admin('addprinc -pw "%s" +requires_preauth before' % PASSWORD, "renprinc -force before salted")
        for user, (words, _) in REFUSED.items():
            self.admin('addprinc -pw "%s" +requires_preauth %s %s' % (PASSWORD, words, user))
        self.admin("ktadd -norandkey -k %s krbtgt/%s@%s" % (self.granting, REALM, REALM))
        self.begin_wrong()
        self.start_kdc("-r", REALM, "-r", OTHER)
        self.admin('addprinc -pw "%s" +requires_preauth changing' % PASSWORD, "addpol -minlength 8 long", "modprinc -policy long changing")
        self.start(["kadmind", "-nofork", "-r", REALM], self.environment, self.password_port)

    def begin_wrong(self):
        """A keytab with a key of ann's that is none, by MIT's ktutil."""
        text = "addent -password -p ann@%s -k 1 -e %s\nanother password\nwkt %s\nquit\n" % (REALM, SUITES[18], self.wrong)
        self.run("ktutil", text=text)

    def of(self, realm, *queries, quiet=False):
        for query in queries:
            subprocess.run(["kadmin.local", "-r", realm, "-q", query], env=self.environment, capture_output=True, timeout=60, check=not quiet)

    def client_config(self, port, name="relay.conf"):
        """A krb5.conf of clients that know the KDC at this port alone."""
        return self.write_client(name, OWN, BEHIND.format(port), port)

    def status(self, *command, environment=None, text=""):
        """The status of a command, its output, and its lines of errors."""
        done = subprocess.run(command, env=environment or self.environment, input=text, capture_output=True, text=True, timeout=60)
        return done.returncode, done.stdout, done.stderr
