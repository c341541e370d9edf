"""Apache with mod_auth_gssapi, which is over MIT's GSS-API, before examples/python/http_client.py; left out where Debian's packages cannot be had."""

import glob
import os
import pwd
import shutil
import subprocess
import sys
import tempfile

from checks import expect, say
from realm import free_port
from script import TOP, apt_install

PACKAGES = "apache2-bin", "libapache2-mod-auth-gssapi"
PAGE = "Hello from Apache.\n"
MODULES = "mpm_event", "authn_core", "authz_core", "authz_user", "mime", "auth_gssapi"
CONFIG = """ServerRoot {home}
ServerName localhost
Listen 127.0.0.1:{port}
PidFile {home}/pid
ErrorLog {home}/error.log
DefaultRuntimeDir {home}
TypesConfig /dev/null
{modules}
{user}
DocumentRoot {home}/pages
<Directory {home}/pages>
 Require all denied
</Directory>
<Location />
 AuthType GSSAPI
 AuthName Kerberos
 GssapiCredStore keytab:{home}/keytab
 GssapiAcceptorName HTTP@localhost
 Require {who}
</Location>
"""


def folder_of_modules():
    """Where Apache's modules are, installed where they are missing and this may be done; None where they cannot be had."""
    wanted = "/usr/lib/apache2/modules/mod_auth_gssapi.so"
    if not os.path.exists(wanted) and os.geteuid() == 0:
        apt_install(*PACKAGES)
    return os.path.dirname(wanted) if os.path.exists(wanted) and os.path.exists("/usr/sbin/apache2") else None


class Apache:
    """Apache in a folder of its own, which its user may read."""

    def __init__(self, realm, environment, modules, who="valid-user"):
        self.home, self.port = tempfile.mkdtemp(), free_port()
        os.mkdir(os.path.join(self.home, "pages"))
        with open(os.path.join(self.home, "pages", "hello.txt"), "w", encoding="ascii") as file:
            file.write(PAGE)
        shutil.copy(realm.keytab, os.path.join(self.home, "keytab"))
        shutil.copy(environment["KRB5_CONFIG"], os.path.join(self.home, "krb5.conf"))
        user = ""
        if os.geteuid() == 0:
            user = "User www-data\nGroup www-data"
            entry = pwd.getpwnam("www-data")
            for each in (self.home, *glob.glob(self.home + "/**", recursive=True)):
                os.chown(each, entry.pw_uid, entry.pw_gid)
        lines = "\n".join("LoadModule %s_module %s/mod_%s.so" % (each, modules, each) for each in MODULES)
        path = os.path.join(self.home, "httpd.conf")
        with open(path, "w", encoding="ascii") as file:
            file.write(CONFIG.format(home=self.home, port=self.port, modules=lines, user=user, who=who))
        realm.start(["/usr/sbin/apache2", "-f", path, "-DFOREGROUND"], dict(environment, KRB5_CONFIG=os.path.join(self.home, "krb5.conf")), self.port)
        self.process = realm.processes[-1]
        self.url = "http://localhost:%d/hello.txt" % self.port

    def end(self):
        self.process.terminate()
        self.process.wait(20)
        shutil.rmtree(self.home)


def try_apache(realm, environment, credentials):
    modules = folder_of_modules()
    if modules is None:
        say("left out: Apache, whose packages cannot be had")
        return
    path, program = realm.path("apache"), os.path.join(TOP, "examples", "python", "http_client.py")
    credentials.save(path)

    def get(url):
        done = subprocess.run([sys.executable, "-B", program, url, path], env=environment, capture_output=True, text=True, timeout=60)
        return done.returncode, done.stdout, done.stderr

    for who, answer in (("valid-user", (0, PAGE)), ("user " + credentials.client, (0, PAGE)), ("user nobody@NOWHERE.TEST", (1, ""))):
        server = Apache(realm, environment, modules, who)
        try:
            found = get(server.url)
            expect(found[:2] == answer, "Apache, Require %s: %s" % (who, found))
        finally:
            server.end()
    say("Apache's mod_auth_gssapi")
