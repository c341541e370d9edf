#!/usr/bin/env python3
"""Gets a web page for which Kerberos is needed (RFC 4559): http_client.py URL FILE.

FILE has a ticket-granting ticket, as of `python -m krb kinit -c FILE`. Prints the page, once the server has confirmed that it is the one that the ticket is for: mutual
authentication. With TLS the channel is bound to the server's certificate, which has to be signed with SHA-256. The status is 1, and standard error says why, where there
is no page."""

import base64
import hashlib
import http.client
import sys
import urllib.parse

import krb

LONGEST = 1 << 20
INITIATOR, COMPLETE = krb.NegotiationRole.INITIATOR, krb.NegotiationState.COMPLETE


def connected(url):
    """A connection, and the channel bindings of the server's certificate (RFC 5929, 4.1); None without TLS."""
    if url.scheme != "https":
        return http.client.HTTPConnection(url.hostname, url.port or 80, timeout=30), None
    link = http.client.HTTPSConnection(url.hostname, url.port or 443, timeout=30)
    link.connect()
    return link, b"tls-server-end-point:" + hashlib.sha256(link.sock.getpeercert(binary_form=True)).digest()


def answered(link, path, token):
    """The status, the token of the answer, None where there is none, and the page."""
    link.request("GET", path, headers={"Authorization": "Negotiate " + base64.b64encode(token).decode("ascii")})
    answer = link.getresponse()
    page = answer.read(LONGEST + 1)
    if len(page) > LONGEST:
        raise ValueError("the page has more than %d octets" % LONGEST)
    scheme, _, text = (answer.headers["WWW-Authenticate"] or "").partition(" ")
    return answer.status, base64.b64decode(text, validate=True) if scheme.lower() == "negotiate" and text else None, page


def got(url, path):
    """The page at a URL."""
    parts = urllib.parse.urlsplit(url)
    ticket = krb.client.load(path).ticket_for("HTTP/" + parts.hostname)
    link, bindings = connected(parts)
    side = krb.Negotiator(INITIATOR, [krb.KerberosInitiator(ticket, channel_bindings=bindings)])
    token, state = side.step()
    while token is not None:
        status, answer, page = answered(link, urllib.parse.quote(parts.path or "/", safe="/%"), token)
        if state == COMPLETE:
            break
        if answer is None:
            raise ValueError("the server answers %d and does not confirm that it is %s" % (status, ticket.server))
        token, state = side.step(answer)
    if state != COMPLETE or status != 200:
        raise ValueError("the server answers %d" % status)
    return page


def main():
    if len(sys.argv) != 3:
        print(__doc__.split("\n\n")[0], file=sys.stderr)
        return 2
    try:
        sys.stdout.buffer.write(got(*sys.argv[1:]))
        return 0
    except (OSError, ValueError, LookupError, http.client.HTTPException) as error:
        print("http_client: %s" % " ".join(str(error).split()), file=sys.stderr)
        return 1


if __name__ == "__main__":
    sys.exit(main())
