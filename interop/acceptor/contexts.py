"""Whole contexts with real clients: what `krb.Acceptor` says of them is compared with what the client and klist say."""

import os

import krb
from checks import expect
from mutants import BINDINGS
from realm import REALM
from refusals import refusal_of, status_of

FLAGS = [
    (),
    ("mutual",),
    ("mutual", "replay"),
    ("mutual", "replay", "sequence"),
    ("replay", "sequence"),
    ("mutual", "bindings"),
    ("bindings",),
    ("deleg",),
    ("mutual", "deleg", "replay"),
    ("mutual", "dce"),
    ("mutual", "dce", "sequence"),
]
SIZES = (0, 1, 15, 16, 1000, 70000)


def fails(call, *kinds):
    try:
        call()
    except kinds:
        return True
    return False


def try_facts(realm, title, client, context, service, user, is_delegated):
    """What both sides know."""
    facts = client.facts()
    server = "%s/localhost@%s" % (service, REALM)
    expect((context.client, context.client_realm) == (facts.client, REALM), "%s: the client is %s, and not %s" % (title, context.client, facts.client))
    expect(context.client == user, "%s: the client is %s, and not %s" % (title, context.client, user))
    expect((context.server, context.server_components) == (server, (service, "localhost")), "%s: the server is %s" % (title, context.server))
    known = krb.ContextFlag(facts.flags) & krb.ContextFlag(0x103F)
    expect(context.flags == known, "%s: the flags are %r, and not %r" % (title, context.flags, known))
    expect((context.delegated is not None) == is_delegated, "%s: delegated: %r" % (title, context.delegated))
    if is_delegated:
        expect(krb.decode(context.delegated, "KRB-CRED")["msg-type"] == 22, "%s: the delegated credentials are no KRB-CRED" % title)
    own = context.own_subkey or context.subkey or context.session_key
    if facts.key:
        expect(own.octets == facts.key, "%s: another key of the context" % title)
        expect(facts.etype in (None, own.etype), "%s: the key's type is %d, and not %s" % (title, own.etype, facts.etype))
    if realm is not None:
        end = realm.end_of("%s/localhost" % service)
        expect(context.end_time.timetuple()[:6] == end, "%s: the end is %s, and not %s" % (title, context.end_time, end))
    expect({"pre-authent", "forwardable"} & context.ticket_flags, "%s: the ticket's flags are %s" % (title, sorted(context.ticket_flags)))


def try_messages(title, client, context, is_dce):
    """MIC and Wrap tokens both ways."""
    for size in SIZES:
        message = os.urandom(size)
        client.verify(message, context.get_mic(message))
        token = client.mic(message)
        context.verify_mic(message, token)
        expect(fails(lambda: context.verify_mic(message + b"!", token), krb.Refused), "%s: a MIC of another message" % title)
        if is_dce:
            continue  # Wrap tokens of DCE style are of another layout (MS-KILE, 3.4.5.4.1)
        for encrypt in (True, False):
            expect(client.unwrap(context.wrap(message, encrypt)) == message, "%s: our Wrap token of %d octets" % (title, size))
            token = client.wrap(message, encrypt)
            found = context.unwrap(token)
            expect((found.message, found.sealed) == (message, encrypt), "%s: a Wrap token of %d octets" % (title, size))
            expect(fails(lambda: context.unwrap(token[:-1] + bytes([token[-1] ^ 1])), krb.Refused), "%s: a changed Wrap token" % title)


def try_order(title, client, context):
    """Messages that come twice, late or not at all (RFC 2743, 1.2.3), as the flags ask to be told."""
    messages = [b"message %d" % n for n in range(5)]
    tokens = [client.mic(each) for each in messages]
    replay = bool(context.flags & (krb.ContextFlag.REPLAY | krb.ContextFlag.SEQUENCE))
    sequence = krb.ContextFlag.SEQUENCE in context.flags
    wanted = [(0, None), (0, "REPLAYED" if replay else None), (2, "GAP" if sequence else None), (1, "OUT_OF_ORDER" if sequence else None)]
    for n, name in wanted + [(1, "REPLAYED" if replay else None), (3, None), (4, None)]:
        order = None
        try:
            context.verify_mic(messages[n], tokens[n])
        except krb.OutOfOrder as error:
            order = error.order.name
        expect(order == name, "%s: message %d is %s, and not %s" % (title, n, order, name))


def try_context(realm, title, make, acceptor, service, words, user="ann@" + REALM):
    """A context with a client, from its token to messages; the token that was sent."""
    flags, bindings = [word for word in words if word != "bindings"], BINDINGS if "bindings" in words else None
    client = make(service, flags, bindings)
    try:
        token = client.begin()
        context = acceptor.accept(token, bindings)
        expect((context.reply is not None) == ("mutual" in words), "%s: a reply where the client waits for none, or none" % title)
        if context.reply is not None:
            third = client.take(context.reply)
            expect((third is not None) == (not context.is_complete), "%s: a third message: %r" % (title, third))
            if third is not None:
                expect(fails(lambda: context.get_mic(b""), RuntimeError), "%s: a message before the third one" % title)
                for what, message, status in (
                    ("the reply", context.reply, "DIRECTION"), ("a cut one", third[:-1], "INVALID"), ("nothing", b"", "INVALID"),
                    ("a changed one", third[:-1] + bytes([third[-1] ^ 1]), "INTEGRITY"),
                ):
                    error = status_of(context.confirm, message)
                    expect(error == krb.Status[status] and not context.is_complete, "%s: %s as the third message: %s" % (title, what, error))
                context.confirm(third)
                expect(fails(lambda: context.confirm(third), RuntimeError), "%s: the third message twice" % title)
        expect(client.is_complete() and context.is_complete, "%s: the context is not complete" % title)
        try_facts(realm, title, client, context, service, user, "deleg" in words)
        try_messages(title, client, context, "dce" in words)
        if "dce" not in words:
            try_order(title, client, context)
        again = refusal_of(acceptor.accept, token, bindings)
        expect(again is not None and again.rule == krb.Rule.REPEAT, "%s: the second time: %r" % (title, again))
        if bindings is not None:
            other = refusal_of(acceptor.accept, token, bindings + b"!")
            expect(other is not None and other.rule == krb.Rule.BINDINGS, "%s: other channel bindings: %r" % (title, other))
        return token
    except Exception as error:  # of two libraries
        expect(False, "%s: %s: %s" % (title, type(error).__name__, error))
        return None
    finally:
        client.end()


def try_error(title, make, acceptor, service):
    """The KRB-ERROR for a client that is refused, as the client reads it."""
    client = make(service, ["mutual"], None)
    try:
        token = client.begin()
        acceptor.accept(token)
        again = refusal_of(acceptor.accept, token)
        try:
            client.take(again.error)
            expect(False, "%s: takes a KRB-ERROR for a reply" % title)
        except Exception as error:  # of two libraries
            expect("replay" in str(error).lower() or "repeat" in str(error).lower(), "%s: says of the KRB-ERROR: %s" % (title, error))
        error = krb.decode(krb.spnego.token(again.error).inner[2:], "KRB-ERROR")
        expect((error["error-code"], error["realm"]) == (34, REALM), "%s: the KRB-ERROR is %s" % (title, error))
    finally:
        client.end()
