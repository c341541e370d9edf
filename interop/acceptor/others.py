"""Clients beside MIT's: Heimdal's library, Impacket and gokrb5, each where Debian's packages can be had."""

import glob
import os
import subprocess

from checks import expect, say
from heimdal import HEADERS, programs
from realm import PASSWORD, REALM
from script import PATHS

HERE = os.path.dirname(os.path.abspath(__file__))


def unpacked_heimdal(realm):
    """The client of Heimdal's GSS-API, and where its libraries are; None where they cannot be had."""
    root, program = realm.path("heimdal"), realm.path("heimdal_client")
    if programs(root, HEADERS) is None:
        return None
    found = glob.glob(os.path.join(root, "usr", "lib", "*", "libgssapi.so.3"))
    libraries = os.path.dirname(found[0])
    command = ["gcc", "-Wall", "-Wextra", "-O1", "-I" + os.path.join(root, "usr", "include", "heimdal"), os.path.join(HERE, "gss_client.c"), "-o", program]
    realm.run(*command, found[0], "-Wl,-rpath-link," + libraries)
    return program, libraries


def said(realm, command, environment):
    """The lines "name value" that a client writes, as a dict; None, and a line that says so, where it fails."""
    try:
        done = subprocess.run(command, env=environment, capture_output=True, text=True, timeout=120)
    except OSError as error:
        say("left out: %s: %s" % (command[0], error))
        return None
    if done.returncode != 0:
        say("left out: %s: %s" % (" ".join(map(os.path.basename, command[-2:])), (done.stderr.strip().splitlines() or ["status %d" % done.returncode])[-1]))
        return None
    return dict(line.split(" ", 1) for line in done.stdout.splitlines())


def try_token(realm, name, facts, bare):
    """A token of which the client told the session key."""
    import krb

    acceptor = krb.Acceptor(realm.keytab, replay_cache=krb.ReplayCache(None), bare_request=bare)
    token = bytes.fromhex(facts["token"])
    try:
        context = acceptor.accept(token)
    except krb.NotAccepted as refused:
        expect(False, "%s: %s" % (name, refused))
        return
    expect(context.client == "ann@" + REALM, "%s: the client is %s" % (name, context.client))
    expect(context.server == "%s@%s" % (facts["server"], REALM), "%s: the server is %s" % (name, context.server))
    expect(context.session_key.octets.hex() == facts["key"], "%s: another session key" % name)
    try:
        acceptor.accept(token)
        expect(False, "%s: let in twice" % name)
    except krb.NotAccepted as refused:
        expect(refused.rule == krb.Rule.REPEAT, "%s: the second time: %s" % (name, refused))


def try_others(realm):
    environment = dict(realm.environment, PASSWORD=PASSWORD, REALM=REALM)
    for etype in (17, 18):
        server = "e%d/localhost" % etype
        realm.run("kvno", server)
        facts = said(realm, ["/usr/bin/python3", os.path.join(HERE, "impacket_client.py"), realm.cache, server], environment)
        if facts is not None:
            try_token(realm, "Impacket, %d" % etype, facts, True)
            say("Impacket, etype %d: a token" % etype)
    program = realm.path("gokrb5_client")
    paths = dict(environment, HOME=realm.home, GOPATH="/usr/share/gocode", GO111MODULE="off", GOFLAGS="", GOPROXY="off", PATH=PATHS + ":/usr/lib/go/bin")
    built = said(realm, ["go", "build", "-o", program, os.path.join(HERE, "gokrb5_client.go")], paths)
    for etype in (17, 18, 19, 20) if built is not None else ():
        facts = said(realm, [program, "e%d/localhost" % etype], paths)
        if facts is not None:
            try_token(realm, "gokrb5, %d" % etype, facts, False)
            say("gokrb5, etype %d: a token" % etype)
