"""Serves examples/kdc_proxy with TLS on 127.0.0.1: proxy.py PORT FOLDER, which has cert.pem and key.pem."""

import os
import ssl
import sys
from wsgiref.simple_server import WSGIRequestHandler, make_server

from kdc_proxy import application


class Handler(WSGIRequestHandler):
    def log_message(self, *words):
        pass


port, folder = sys.argv[1:]
with make_server("127.0.0.1", int(port), application, handler_class=Handler) as server:
    context = ssl.SSLContext(ssl.PROTOCOL_TLS_SERVER)
    context.load_cert_chain(os.path.join(folder, "cert.pem"), os.path.join(folder, "key.pem"))
    server.socket = context.wrap_socket(server.socket, server_side=True, do_handshake_on_connect=False)
    server.serve_forever()
