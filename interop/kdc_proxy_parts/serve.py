"""Serves a KDC proxy with TLS on 127.0.0.1: serve.py NAME PORT FOLDER.

NAME is `kdc_proxy` (examples/kdc_proxy/kdc_proxy.py), `strict` (kdcproxy with examples/kdc_proxy/strict_kdcproxy.py as its parser) or `plain` (kdcproxy as
it is). FOLDER has cert.pem and key.pem. A line of JSON goes to FOLDER/record-PORT for each answer: its status, and in hexadecimal what was read of the request
and what was answered.

The variable NAME_SERVER is the port on 127.0.0.1 of the name server that the process asks, by dnspython, by which kdcproxy looks names up, and by
getaddrinfo, which asks it for each host that is not an address and finds none, but for three.test, which has the addresses 127.0.0.1 to 127.0.0.3."""

import json
import os
import socket
import socketserver
import ssl
import sys
import threading
from wsgiref.simple_server import WSGIRequestHandler, WSGIServer

EXAMPLES = os.path.join(os.path.dirname(os.path.abspath(__file__)), "..", "..", "examples", "kdc_proxy")


def ask_name_server(port):
    """Has look-ups of names go to this port of 127.0.0.1 alone."""
    import dns.exception
    import dns.resolver

    resolver = dns.resolver.Resolver(configure=False)
    resolver.nameservers, resolver.port, resolver.lifetime = ["127.0.0.1"], port, 5
    dns.resolver.default_resolver = resolver
    getaddrinfo = socket.getaddrinfo

    def asked(host, *rest, **named):
        if host == "three.test":
            return [found for n in "123" for found in asked("127.0.0." + n, *rest, **named)]
        try:
            return getaddrinfo(host, *rest, **{**named, "flags": socket.AI_NUMERICHOST})
        except socket.gaierror:
            try:
                resolver.resolve(host, "A", search=False)
            except dns.exception.DNSException:
                pass
            raise

    socket.getaddrinfo = asked


def application_of(name):
    sys.path.insert(0, EXAMPLES)
    if name == "kdc_proxy":
        from kdc_proxy import application

        return application
    if name == "strict":
        import strict_kdcproxy  # noqa: F401
    from kdcproxy import application

    return application


class Kept:
    """The body of a request, and what was read of it."""

    def __init__(self, stream):
        self.stream, self.octets = stream, b""

    def read(self, size=-1):
        part = self.stream.read(size)
        self.octets += part
        return part


def recorded(application, path):
    lock = threading.Lock()

    def call(environ, start_response):
        body, said = Kept(environ["wsgi.input"]), []
        environ["wsgi.input"] = body

        def start(status, headers, *rest):
            said.append(int(status.split()[0]))
            return start_response(status, headers, *rest)

        answer = b""
        try:
            answer = b"".join(application(environ, start))
            return [answer]
        finally:
            line = json.dumps({"status": said[0] if said else 500, "request": body.octets.hex(), "reply": answer.hex()})
            with lock, open(path, "a", encoding="ascii") as file:
                file.write(line + "\n")

    return call


class Server(socketserver.ThreadingMixIn, WSGIServer):
    daemon_threads = True

    def server_bind(self):
        """As HTTPServer's, without a look-up of the host's name."""
        socketserver.TCPServer.server_bind(self)
        self.server_name, self.server_port = "localhost", self.server_address[1]
        self.setup_environ()

    def get_request(self):
        link, address = super().get_request()
        link.settimeout(60)
        return self.context.wrap_socket(link, server_side=True, do_handshake_on_connect=False), address

    def handle_error(self, request, client_address):
        """What goes wrong with a connection is the client's to see."""


class Handler(WSGIRequestHandler):
    def log_message(self, *words):
        pass

    def address_string(self):
        return self.client_address[0]


def main():
    name, port, folder = sys.argv[1:]
    ask_name_server(int(os.environ["NAME_SERVER"]))
    server = Server(("127.0.0.1", int(port)), Handler)
    server.context = ssl.SSLContext(ssl.PROTOCOL_TLS_SERVER)
    server.context.load_cert_chain(os.path.join(folder, "cert.pem"), os.path.join(folder, "key.pem"))
    server.set_app(recorded(application_of(name), os.path.join(folder, "record-%s" % port)))
    server.serve_forever()


if __name__ == "__main__":
    main()
