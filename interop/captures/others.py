"""Other programs that speak Kerberos: curl and a web page, Heimdal's clients, Samba's domain (whose KDC is Heimdal's) with its LDAP and SMB."""

import os
import re
import subprocess
import time

from checks import say
from recorded import Recording
from realm import PASSWORD, REALM
from script import TOP, module_of

SERVE = os.path.join(TOP, "examples", "http_negotiate", "serve.py")
BASIC = "a secret word"  # a password that goes by in Basic, and is nobody's business
SAMBA_PASSWORD, NEW_PASSWORD = "A-pass-1word", "A-new-4word-here"  # the first is that of interop/samba

def web_page(realm, environment, path):
    """A login by curl at a page of Python, with a ticket of before, and one without a ticket."""
    command = ["/usr/bin/python3", SERVE, "--new", realm.path("keytab"), realm.path("replays"), "80"]
    realm.start(command, dict(environment, PYTHONPATH=os.path.join(TOP, "python")), 80)
    with Recording(path):
        curl = ["curl", "-s", "--noproxy", "*", "-4", "-o", "/dev/null", "-w", "%{http_code}", "http://localhost/"]
        ticket, none = realm.by("tcp", "captured-web"), dict(realm.environment, KRB5CCNAME="FILE:" + realm.path("none"))
        right = realm.client(ticket, "kinit", "ann", text=PASSWORD + "\n") == 0
        tries = [(ticket, ["--negotiate", "-u", ":"]), (none, ["--negotiate", "-u", ":"]), (none, ["--basic", "-u", "ann:" + BASIC])]
        codes = [subprocess.run(curl + words, env=each, capture_output=True, text=True, timeout=60).stdout for each, words in tries]
    return right and codes == ["200", "401", "401"]


class Heimdal:
    """Heimdal's clients in a realm."""

    def __init__(self, realm, programs):
        self.realm, self.programs = realm, programs
        self.environment = dict(realm.environment, LD_LIBRARY_PATH=programs.libraries, KRB5CCNAME="FILE:" + realm.path("heimdal.cache"))

    def run(self, name, *words):
        return self.realm.client(self.environment, self.programs.path(name), *words)

    def conversation(self):
        """Initial tickets with the right password and with another one, tickets for services, and one that is not there."""
        right, wrong = self.realm.write("password", PASSWORD + "\n"), self.realm.write("wrong", "another password\n")
        done = self.run("kinit.heimdal", "--password-file=" + wrong, "ann") != 0
        done &= self.run("kinit.heimdal", "--password-file=" + right, "-f", "ann") == 0
        done &= self.run("kgetcred", "HTTP/localhost@" + REALM) == 0
        done &= self.run("kgetcred", "e20/localhost@" + REALM) == 0
        done &= self.run("kgetcred", "nobody/localhost@" + REALM) != 0
        return done


class Samba:
    """A domain of Samba's, as interop/samba makes it, at the ports 88, 464, 389 and 445 of 127.0.0.1."""

    def __init__(self, folder):
        self.samba = module_of("samba")
        os.mkdir(folder)
        self.domain = domain = self.samba.Domain(folder)
        domain.port = 88
        domain.make()
        with open(domain.path("smb.conf"), encoding="ascii") as file:
            text = file.read().replace("server services = kdc", "server services = kdc, ldap, s3fs, winbindd\nldap server require strong auth = no")
        # libwbclient looks for winbindd in this folder alone. It is one of this mount namespace.
        os.makedirs("/run/samba", exist_ok=True)
        subprocess.run(["mount", "-t", "tmpfs", "none", "/run/samba"], check=True)
        text = re.sub("winbindd socket directory = .*", "winbindd socket directory = /run/samba/winbindd", text)
        domain.write("smb.conf", text.replace("kpasswd port = 0", "kpasswd port = 464"))
        with open(domain.path("krb5.conf"), encoding="ascii") as file:
            text = file.read()
        domain.write("krb5.conf", text.replace("kdc = 127.0.0.1:88", "kdc = 127.0.0.1:88\nkpasswd_server = 127.0.0.1:464"))
        domain.tool("user", "create", "alice", SAMBA_PASSWORD)
        domain.tool("spn", "add", "ldap/dc1.ad.example", "dc1$")
        domain.tool("spn", "add", "cifs/dc1.ad.example", "dc1$")
        domain.tool("domain", "passwordsettings", "set", "--min-pwd-age=0")
        self.keytab = domain.export("all.keytab")
        domain.start_samba()

    def conversation(self, path):
        """A ticket, a password, LDAP by GSSAPI and GSS-SPNEGO, and SMB; the names of what went well."""
        domain, password = self.domain, SAMBA_PASSWORD
        hosts = domain.write("hosts", "127.0.0.1 dc1.ad.example dc1\n")
        cache = dict(domain.environment, KRB5CCNAME="FILE:" + domain.path("cache.cc"), LDAPSASL_NOCANON="on")
        kerberos = "--use-kerberos=required", "--use-krb5-ccache=" + cache["KRB5CCNAME"], "-s", domain.path("client.conf")
        ends = "-H", "ldap://dc1.ad.example", "-b", "", "-s", "base", "-N"
        ways = {
            "kinit": (["kinit", "alice@AD.EXAMPLE"], password + "\n"),
            "kvno": (["kvno", "host/dc1.ad.example"], ""),
            "GSSAPI": (["ldapsearch", "-Y", "GSSAPI", *ends], ""),
            "GSS-SPNEGO": (["ldapsearch", "-Y", "GSS-SPNEGO", *ends], ""),
            "smbclient": (["smbclient", *kerberos, "//dc1.ad.example/IPC$", "-c", "quit"], ""),
            "kpasswd": (["kpasswd", "alice@AD.EXAMPLE"], "%s\n%s\n%s\n" % (password, NEW_PASSWORD, NEW_PASSWORD)),
        }
        lines = "[global]\nrealm = AD.EXAMPLE\nworkgroup = AD\nlog level = 0\nlock directory = %s\nprivate dir = %s\n"
        domain.write("client.conf", lines % (domain.path("lock"), domain.path("private")))
        done = []
        with Recording(path):
            for name, (command, text) in ways.items():
                # The host's name is known to this command alone, in a mount namespace of its own.
                inner = ["unshare", "-m", "sh", "-c", 'mount --bind "$0" /etc/hosts && exec "$@"', hosts, *command]
                ended = subprocess.run(inner, env=cache, input=text, capture_output=True, text=True, timeout=60)
                if ended.returncode == 0:
                    done.append(name)
                else:
                    say("Samba: %s: %s" % (name, (ended.stderr or ended.stdout).strip()[-300:]))
                time.sleep(0.2)
        return done

    def stop(self):
        self.domain.stop()
