"""A KDC proxy (MS-KKDCP) that passes on Kerberos and nothing else: a WSGI application.

KDC_PROXY_CONFIG names the file of its settings; see README.md."""

import configparser
import http.client
import logging
import os
import socket
import sys
import time

import krb
from krb import proxy

log = logging.getLogger("kdc_proxy")


class Answer(Exception):
    """What a client gets whose request is refused: a status of HTTP, a line of text, headers."""


def left(end):
    """How many seconds there are until then."""
    seconds = end - time.monotonic()
    if seconds <= 0:
        raise socket.timeout("too late")
    return seconds


def ask(family, address, octets, limit, end):
    """What a server replies to these octets until then, as the message that goes back."""
    with socket.socket(family, socket.SOCK_STREAM) as link:
        link.settimeout(left(end))
        link.connect(address)
        link.settimeout(left(end))
        link.sendall(octets)
        reply = b""
        while not proxy.is_whole(reply, limit):
            link.settimeout(left(end))
            part = link.recv(65536)
            if not part:
                raise ConnectionError("it closed before its reply was whole")
            reply += part
    return proxy.write_reply(reply)


def addresses(word):
    """The family and the address of each server that HOST:PORT names."""
    host, _, port = word.rpartition(":")
    found = socket.getaddrinfo(host.strip("[]"), int(port), type=socket.SOCK_STREAM)
    return [(family, address) for family, _, _, _, address in found]


class Application:
    def __init__(self, path):
        settings = configparser.ConfigParser(interpolation=None)
        with open(path, encoding="ascii") as file:
            settings.read_file(file)
        if not settings.has_section("proxy"):
            settings.add_section("proxy")  # all of it has defaults
        own = settings["proxy"]
        self.limit, self.seconds = own.getint("limit", 131072), own.getfloat("seconds", 10)
        self.any_target_domain = own.getboolean("any_target_domain", False)
        self.any_content_type = own.getboolean("any_content_type", False)
        self.servers = {}
        for realm in set(settings.sections()) - {"proxy"}:
            for service in proxy.Service:
                words = settings[realm].get(service.name, "").split()
                found = [each for word in words for each in addresses(word)]
                self.servers[realm.upper(), service] = found

    def request(self, environ):
        """The request that a client posted."""
        if environ["REQUEST_METHOD"] != "POST":
            raise Answer(405, "POST a KDC-PROXY-MESSAGE", ("Allow", "POST"))
        kind = environ.get("CONTENT_TYPE", "").partition(";")[0].strip().lower()
        if kind != "application/kerberos" and not self.any_content_type:
            raise Answer(415, "the Content-Type is not application/kerberos")
        length = environ.get("CONTENT_LENGTH", "")
        if not (length.isascii() and length.isdecimal()):
            raise Answer(411, "no Content-Length")
        if len(length) > 9 or int(length) > self.limit:
            raise Answer(413, "more than %d octets" % self.limit)
        try:
            body = environ["wsgi.input"].read(int(length))
        except OSError:
            raise Answer(408, "the body did not come")
        if len(body) < int(length):
            raise Answer(400, "the body ends before its Content-Length")
        try:
            request = proxy.read_request(body)
        except krb.Refused as refused:
            raise Answer(proxy.http_status(refused), str(refused))
        names = request.service.name, request.target_domain, request.server, request.client
        log.info("%s %r for %r, of %r", *names)
        if not (request.names_one_realm or self.any_target_domain):
            raise Answer(400, "target-domain is not the realm of the request")
        return request

    def reply(self, request):
        """What the first server replies that does; each has its share of the time that is left."""
        realm = request.target_domain.decode("ascii").upper()
        servers = self.servers.get((realm, request.service), [])
        failed, end = Answer(503, "no server of this realm"), time.monotonic() + self.seconds
        for n, server in enumerate(servers):
            try:
                until = time.monotonic() + left(end) / (len(servers) - n)
                return ask(*server, request.stream, self.limit, until)
            except krb.Refused as refused:
                raise Answer(502, "the reply of the server is refused: %s" % refused)
            except OSError as error:
                status = 504 if isinstance(error, socket.timeout) else 502
                failed = Answer(status, "the server does not reply: %s" % type(error).__name__)
        raise failed

    def __call__(self, environ, start_response):
        try:
            status, kind, headers = 200, "application/kerberos", []
            body = self.reply(self.request(environ))
        except Answer as answer:
            status, text, *headers = answer.args
            log.warning("%d: %s", status, text)
            kind, body = "text/plain", text.encode("ascii")
        headers += [("Content-Type", kind), ("Content-Length", str(len(body)))]
        start_response("%d %s" % (status, http.client.responses[status]), headers)
        return [body]


if __name__ == "__main__":
    sys.exit("kdc_proxy: a server of WSGI runs it, as `gunicorn kdc_proxy:application`; the variable KDC_PROXY_CONFIG names its settings")
if not os.environ.get("KDC_PROXY_CONFIG"):
    raise RuntimeError("kdc_proxy: the variable KDC_PROXY_CONFIG names the file of its settings, and is not set")
application = Application(os.environ["KDC_PROXY_CONFIG"])
