"""Kerberos cryptography and messages, over code that is proved to meet its contracts.

- `krb.decode`, `krb.find`, `krb.find_number`, `krb.items`: octets of DER by the types of their standards: as a tree, a field by its path, all elements. The type may be left out where
  `krb.type_of` tells it by the first octet. `krb.decode` reads PACs, tokens, keytabs and caches, too, where they are named. With a keytab, or with keys, the first three have what these open; `krb.parts` has it alone. `krb.name_of`: what the standards call a
  number or a flag.
- `krb.text`, `krb.json`: the same for people, keys hidden. `krb.show`: what `jolmurig show` writes of octets of any kind, with what a keytab opens; `krb.page_items`: that as items with places.
- `krb.crypto`: encryption, checksums, keys of passwords, sizes (RFC 3961, RFC 3962, RFC 8009).
- `krb.Acceptor`: whether a service lets in the client that sent a token; `krb.Context` with it, `krb.NotAccepted`, replay caches (RFC 4120, 3.2.3; RFC 4121).
- `krb.Negotiator`: which mechanism two sides use (SPNEGO, RFC 4178), over mechanisms that it is lent: `krb.KerberosMechanism`, or ones of your own (`krb.Mechanism`);
  `krb.NotNegotiated`.
- `krb.client`: tickets of a KDC by password or keytab, files of them, and services (RFC 4120): `krb.kinit`, `krb.Credentials`, `krb.Initiator`, `krb.KerberosInitiator`;
  `krb.NotGranted`, `krb.KdcUnreachable`. `python -m krb` is a command line over it.
- `krb.gss`: MIC and Wrap tokens of the GSS-API (RFC 4121).
- `krb.messages`: whether octets are the one encoding of a message, parts sealed and opened (RFC 4120).
- `krb.frames`: frames of password changes (RFC 3244), messages through a proxy to a KDC (MS-KKDCP).
- `krb.proxy`: the requests and replies that a KDC proxy passes on, and no others (MS-KKDCP).
- `krb.pac`: the buffers of a PAC (MS-PAC). `krb.spnego`: tokens of the GSS-API (RFC 2743).
- `krb.capture`: the messages in a capture of a network (docs/CAPTURES.md). `python -m krb capture` is its command line.
- `krb.wsgi`, `krb.asgi`: middlewares that let in those who have a ticket (RFC 4559). `krb.requests`, `krb.httpx`: logins to such pages, for the packages of these names.
- `python3 -m krb.web` serves a page on 127.0.0.1 that shows octets in the browser (docs/WEB.md).

Octets come in as any object with a buffer of octets, as bytes, bytearray or memoryview, and go out as bytes, but for the buffers of a PAC,
which are views of it. What a call refuses is `Refused`, whose `status` says why. The calls may be made by several threads at once; they let
go of the interpreter's lock.

The shared object is what the variable KRBC_LIBRARY names, or `libkrbc.so.2` beside this file, or that of the system's."""

from krb._items import Form, Item, Leaf, Node, Registry, Role, Secret, find_item, first_error, items, name_of, type_of
from krb._library import Refused, Status
from krb._page_items import PageForm, PageItem, page_items
from krb._parts import Hidden, Outcome, Part, decode, find, find_number, parts
from krb._shown import json, show, text
from krb import crypto, frames, gss, messages, pac, proxy, spnego
from krb import accept
from krb.accept import Acceptor, AnyReplayCache, ChannelBindings, Context, ContextFlag, EncryptionKey, FileReplayCache, Forgotten, NotAccepted, Order
from krb.accept import OutOfOrder, ReplayCache, Rule
from krb import negotiate
from krb.negotiate import KerberosMechanism, Mechanism, NegotiationRole, NegotiationRule, NegotiationState, Negotiator, NotNegotiated
from krb import client
from krb.client import ClientRule, Credentials, Initiator, InitiatorContext, KdcUnreachable, KerberosInitiator, NotGranted, kinit

__all__ = ["Form", "Hidden", "Item", "Leaf", "Node", "Outcome", "PageForm", "PageItem", "Part", "Refused", "Registry", "Role", "Secret", "Status", "decode", "find", "find_item", "find_number", "first_error", "items", "json", "name_of", "page_items", "parts", "show", "text", "type_of", "crypto", "frames", "gss", "messages", "pac", "proxy", "spnego"]
__all__ += ["Acceptor", "AnyReplayCache", "ChannelBindings", "Context", "ContextFlag", "EncryptionKey", "FileReplayCache", "Forgotten", "NotAccepted", "Order"]
__all__ += ["OutOfOrder", "ReplayCache", "Rule", "accept"]
__all__ += ["KerberosMechanism", "Mechanism", "NegotiationRole", "NegotiationRule", "NegotiationState", "Negotiator", "NotNegotiated", "negotiate"]
__all__ += ["ClientRule", "Credentials", "Initiator", "InitiatorContext", "KdcUnreachable", "KerberosInitiator", "NotGranted", "client", "kinit"]
__version__ = "0.2.0"
