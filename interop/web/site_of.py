"""The page's server, and requests to it."""

import base64
import http.client
import json
import os
import subprocess
import sys


class Site:
    """`python3 -m krb.web` in empty folders of its own."""

    def __init__(self, folder, python, library, *words):
        self.folders = {name: os.path.join(folder, "site-" + name) for name in ("home", "cwd", "tmp")}
        for each in self.folders.values():
            os.makedirs(each)
        environment = {"PATH": os.environ["PATH"], "HOME": self.folders["home"], "TMPDIR": self.folders["tmp"], "PYTHONPATH": python, "PYTHONDONTWRITEBYTECODE": "1"}
        environment["KRBC_LIBRARY"] = library
        self.errors = os.path.join(folder, "site-errors")
        with open(self.errors, "wb") as errors:
            command = [sys.executable, "-m", "krb.web", *words]
            self.process = subprocess.Popen(command, env=environment, cwd=self.folders["cwd"], stdout=subprocess.PIPE, stderr=errors, stdin=subprocess.DEVNULL)
        self.address = self.process.stdout.readline().decode("ascii").strip()
        self.host, self.token = self.address.split("/")[2:4]
        self.port = int(self.host.split(":")[1])
        self.origin = "http://" + self.host

    def ask(self, method="POST", name="show", headers=None, body=None, token=None, path=None, timeout=30):
        """The status, the headers and the body of an answer. A header of None is left out."""
        link = http.client.HTTPConnection("127.0.0.1", self.port, timeout=timeout)
        given = {"Host": self.host}
        if method == "POST":
            given.update({"Origin": self.origin, "Content-Type": "application/json"})
        given.update(headers or {})
        try:
            link.putrequest(method, path or "/%s/%s" % (token or self.token, name), skip_host=True, skip_accept_encoding=True)
            for each, value in given.items():
                for one in value if isinstance(value, list) else [value]:
                    if one is not None:
                        link.putheader(each, one)
            if body is not None and "Content-Length" not in given:
                link.putheader("Content-Length", str(len(body)))
            link.endheaders(body)
            answer = link.getresponse()
            return answer.status, dict(answer.getheaders()), answer.read()
        finally:
            link.close()

    def show(self, octets, **words):
        """What is answered about octets."""
        asked = dict({"input": base64.b64encode(octets).decode()}, **words)
        status, _, body = self.ask(body=json.dumps(asked).encode())
        return json.loads(body) if status == 200 else status

    def memory(self):
        """The most octets that the process had in memory."""
        with open("/proc/%d/status" % self.process.pid, encoding="ascii") as file:
            return next(int(line.split()[1]) << 10 for line in file if line.startswith("VmHWM"))

    def written(self):
        """Files in its folders, and regular files that it has open to write, but for its standard error."""
        found = [os.path.join(top, name) for each in self.folders.values() for top, _, names in os.walk(each) for name in names]
        for name in os.listdir("/proc/%d/fd" % self.process.pid):
            with open("/proc/%d/fdinfo/%s" % (self.process.pid, name), encoding="ascii") as file:
                flags = next(int(line.split()[1], 8) for line in file if line.startswith("flags"))
            path = os.readlink("/proc/%d/fd/%s" % (self.process.pid, name))
            if flags & 3 and path.startswith("/") and not path.startswith("/dev/") and path != self.errors:
                found.append(path)
        return found

    def end(self):
        self.process.terminate()
        self.process.wait(20)
        self.process.stdout.close()
