"""Serves a page to those who have a ticket: serve.py [--ask] [--new] [--server NAME] KEYTAB CACHE PORT [CERTIFICATE KEY], on 127.0.0.1, with TLS and channel
bindings where there is a certificate; --ask wants MICs over the list of mechanisms, of each client that speaks SPNEGO. --new is said once, of a keytab with
which nobody was let in before: without it a CACHE that is made now lets in nobody for the first five minutes. --server names the service for which tickets have
to be, as HTTP/www.home.test: without it HTTP at any host of which the KEYTAB has a key, and no other service."""

import logging
import os
import sqlite3
import ssl
import sys
from http.server import BaseHTTPRequestHandler
from socketserver import ThreadingMixIn
from wsgiref.simple_server import ServerHandler, WSGIRequestHandler, WSGIServer, make_server


class Server(ThreadingMixIn, WSGIServer):
    """A thread a connection, which may wait for its next request."""

    daemon_threads = True


class Connection(WSGIRequestHandler):
    """Requests of one connection (wsgiref's own takes one and closes), and what a negotiation keeps from one to the next."""

    protocol_version, timeout = "HTTP/1.1", 60

    def handle(self):
        self.kept = {}
        try:
            BaseHTTPRequestHandler.handle(self)
        except OSError as error:  # TLS fails, or the client is gone
            self.log_error("%s", error)

    def do_GET(self):
        if self.headers["Content-Length"] or self.headers["Transfer-Encoding"]:
            self.close_connection = True  # nobody reads what comes with it, and it is no request
        environ = dict(self.get_environ(), **{"negotiate.connection": self.kept})
        handler = ServerHandler(self.rfile, self.wfile, self.get_stderr(), environ)
        handler.http_version, handler.request_handler = "1.1", self
        handler.run(self.server.get_app())


def page(environ, start_response):
    body = ("You are %s.\n" % ascii(environ["REMOTE_USER"])[1:-1]).encode("ascii")
    start_response("200 OK", [("Content-Type", "text/plain; charset=ascii"), ("Content-Length", str(len(body)))])
    return [body]


def words_of(words):
    """The options, by their names, and the other words; None where they are no such ones."""
    options = {"--ask": False, "--new": False, "--server": "HTTP"}
    while words and words[0] in options:
        word, *words = words
        if word == "--server":
            options[word], *words = words or [""]
        else:
            options[word] = True
    is_right = len(words) in (3, 5) and options["--server"] and words[2].isdecimal() and not words[0].startswith("-")
    return (options, words) if is_right else None


def application_of(options, keytab, cache, certificate):
    """The page behind Negotiate."""
    import krb  # here, since the usage is told without the library, too
    from krb.wsgi import Negotiate, bindings_of

    if options["--new"] and os.path.lexists(cache):
        raise ValueError("--new is said once, and %s is there: leave it out" % cache)
    replays = krb.FileReplayCache(cache, None if options["--new"] else "now")
    acceptor = krb.Acceptor(keytab, replay_cache=replays, server=options["--server"])
    return Negotiate(page, acceptor, bindings_of(certificate) if certificate else None, options["--ask"])


def main():
    if sys.argv[1:] == ["--help"]:
        print(__doc__)
        return 0
    given = words_of(sys.argv[1:])
    if given is None:
        print(__doc__, file=sys.stderr)
        return 2
    options, (keytab, cache, port, *files) = given
    logging.basicConfig(format="%(name)s: %(message)s", level=logging.INFO)
    try:
        application = application_of(options, keytab, cache, files[0] if files else None)
    except (OSError, ValueError, sqlite3.Error) as error:
        print("serve.py: %s" % error, file=sys.stderr)
        return 1
    with make_server("127.0.0.1", int(port), application, Server, Connection) as server:
        if files:
            context = ssl.SSLContext(ssl.PROTOCOL_TLS_SERVER)
            context.load_cert_chain(*files)
            server.socket = context.wrap_socket(server.socket, server_side=True, do_handshake_on_connect=False)
        server.serve_forever()
    return 0


if __name__ == "__main__":
    sys.exit(main())
