"""Makes `kdcproxy` (Debian's python3-kdcproxy) pass on Kerberos and nothing else: imported before it, this module stands in for its parser.

    import strict_kdcproxy
    from kdcproxy import application

The parser of kdcproxy, kdcproxy.parse_pyasn1, looks at tags and lengths and at no field; here `krb.proxy` reads a request whole, and a reply. A target-domain
that is not the realm of the request is refused, unless the variable KDC_PROXY_ANY_TARGET_DOMAIN is `yes`: then it alone says whose KDC gets the request."""

import os
import sys

import krb
from krb import messages, proxy

# What kdcproxy.codec names a kind of message by, and hands to `try_decode`.
TGSREQ, ASREQ, APREQ, KRBPriv = messages.Message.TGS_REQ, messages.Message.AS_REQ, messages.Message.AP_REQ, messages.Message.KRB_PRIV

ANY_TARGET_DOMAIN = os.environ.get("KDC_PROXY_ANY_TARGET_DOMAIN") == "yes"


def _refuse(status, text):
    """Ends the request with this status: kdcproxy answers 400 to a ParsingError, and any error but these two would be its status 500."""
    from kdcproxy import HTTPException
    from kdcproxy.exceptions import ParsingError

    raise ParsingError(text) if status == 400 else HTTPException(status, text)


def decode_proxymessage(octets):
    """The message with its length, its realm and the hint of a KDC-PROXY-MESSAGE that is a request, and of no other octets."""
    try:
        request = proxy.read_request(octets)
    except krb.Refused as refused:
        _refuse(proxy.http_status(refused), str(refused))
    if not (request.names_one_realm or ANY_TARGET_DOMAIN):
        _refuse(400, "target-domain is not the realm of the request")
    return request.stream, request.target_domain.decode("ascii"), request.hint


def try_decode(octets, kind):
    """The name of this kind of message, where the octets are one. kdcproxy tries one kind after the other."""
    try:
        messages.check(kind, octets)
    except krb.Refused as refused:
        _refuse(503 if refused.status == krb.Status.MEMORY else 400, str(refused))
    return kind.name.replace("_", "-")


def encode_proxymessage(octets):
    """The KDC-PROXY-MESSAGE of what a server sent, with its length, where that is a reply; else the client gets status 502."""
    try:
        return proxy.write_reply(octets)
    except krb.Refused as refused:
        _refuse(502, "the reply of the server is refused: %s" % refused)


if "kdcproxy" in sys.modules:
    raise ImportError("strict_kdcproxy has to be imported before kdcproxy")
sys.modules["kdcproxy.parse_pyasn1"] = sys.modules[__name__]
