"""The command `krb`, or python3 -m krb: show, accept, list, capture and web, for what octets hold and who is let in; kinit, klist, kvno, kpasswd and kdestroy, a
client with options as those of MIT Kerberos have them. `krb._arguments` has the arguments."""

import argparse
import getpass
import os
import pwd
import sys
from typing import Callable, Dict, List, Optional

from krb import __version__, _ccache
from krb._arguments import parser_of
from krb._configuration import Configuration
from krb._facts import printable
from krb._items import find_number
from krb._list import LETTERS, ended_since, etype_of, list_keytab, run_list, shown
from krb._look import run_accept, run_show
from krb._names import parsed
from krb._output import ended, named
from krb._paths import Failed, cache_path, keytab_path
from krb._plain import why_not
from krb._trace import LOG, tracing
from krb.client import Credentials, Settings, change_password, kinit, load, load_all


def password_of(file: Optional[str], client: str) -> str:
    """The password: the first line of a file, or of standard input where that is "-" or no terminal; else it is asked for."""
    if file is not None and file != "-":
        with named(file), open(file, encoding="utf-8") as opened:
            line = opened.readline()
    elif sys.stdin is None:
        raise Failed("no password came: standard input is closed")
    elif file == "-" or not sys.stdin.isatty():
        with named("standard input"):
            line = sys.stdin.readline()
    else:
        return _asked("Password for %s: " % printable(client))
    if not line:
        raise Failed("no password came%s" % (": %s is empty" % file if file not in (None, "-") else ""))
    return line.rstrip("\r\n")


def _asked(text: str) -> str:
    try:
        return getpass.getpass(text)
    except EOFError:
        raise Failed("no password came") from None


def passwords_of(file: Optional[str], client: str) -> List[str]:
    """The old and the new password: the first two lines of a file, or of standard input; else they are asked for, the new one twice."""
    if file is None and sys.stdin is not None and sys.stdin.isatty():
        old, new = (_asked(text) for text in ("Password for %s: " % printable(client), "Enter new password: "))
        if _asked("Enter it again: ") != new:
            raise Failed("the new passwords differ")
        return [old, new]
    if file is not None and file != "-":
        with named(file), open(file, encoding="utf-8") as opened:
            lines = opened.read().splitlines()
    elif sys.stdin is None:
        raise Failed("no two passwords came: standard input is closed")
    else:
        with named("standard input"):
            lines = sys.stdin.read().splitlines()
    if len(lines) < 2:
        raise Failed("no two passwords came: the old one and the new one stand in a line each")
    return lines[:2]


def client_of(options: argparse.Namespace) -> str:
    """The principal, or the user's name; with its realm, or the default one."""
    client: str = options.principal or pwd.getpwuid(os.getuid()).pw_name
    realm = None if "@" in client else Configuration(options.config).default_realm
    if "@" not in client and realm is None:
        raise Failed("a principal without a realm, and no default_realm")
    return client if realm is None else "%s@%s" % (client, realm)


def settings_of(options: argparse.Namespace) -> Settings:
    kdc: Optional[List[str]] = options.kdc or None
    return Settings(kdc, options.config, options.dns, options.timeout)


def tickets_of(path: str, settings: Settings) -> List[Credentials]:
    try:
        with named(path):
            return load_all(path, settings)
    except FileNotFoundError:
        raise Failed("no file of tickets: %s" % path) from None


def held_ticket(path: str, settings: Settings) -> Credentials:
    """The ticket-granting ticket of a file."""
    try:
        with named(path):
            return load(path, settings)
    except FileNotFoundError:
        raise Failed("no file of tickets: %s" % path) from None


def save(ticket: Credentials, path: str) -> None:
    """Writes the file of a ticket."""
    LOG.info("Initializing FILE:%s with default princ %s", printable(path), printable(ticket.client))
    with named(path):
        ticket.save(path)
    LOG.info("Storing %s -> %s in FILE:%s", printable(ticket.client), printable(ticket.server), printable(path))


def run_kinit(options: argparse.Namespace) -> int:
    path, settings = cache_path(options.cache), settings_of(options)
    if options.renew or options.validate:
        held = held_ticket(path, settings)
        if options.server is not None:
            server = parsed(options.server, held.entry.client.realm)
            held = next((each for each in load_all(path, settings) if each.entry.server.is_same(server)), held)
            if not held.entry.server.is_same(server):
                raise Failed("no ticket for %s in %s" % (server.text, path))
        save(held.renew() if options.renew else held.validate(), path)
        return 0
    client = client_of(options)
    by_keytab = options.keytab is not None or options.use_keytab
    keytab = keytab_path(options.keytab) if by_keytab else None
    password = None if by_keytab else password_of(options.password_file, client)
    keys: Optional[bytes] = None
    if keytab is not None:
        with named(keytab), open(keytab, "rb") as file:
            keys = file.read()
    found = kinit(
        client, password, keys, kdc=settings.kdc, server=options.server, lifetime=options.lifetime, renewable=options.renewable, forwardable=options.forwardable,
        proxiable=options.proxiable, start=options.start, timeout=options.timeout, configuration=options.config, dns=options.dns,
        canonicalize=options.canonicalize,
    )
    save(found, path)
    return 0


def run_klist(options: argparse.Namespace) -> int:
    if options.use_keytab:
        return list_keytab(keytab_path(options.keytab), options.etypes)
    path = cache_path(options.cache)
    if options.silent:
        try:
            return 0 if load(path).is_valid else 1
        except (OSError, ValueError, LookupError):
            return 1
    found = tickets_of(path, Settings())
    print("Ticket cache: FILE:%s" % printable(path))
    print("Default principal: %s\n" % printable(_ccache.read(path).client.text))
    print("%-19s  %-19s  %s" % ("Valid starting", "Expires", "Service principal"))
    for each in found:
        over = ended_since(each.end_time, each.settings.clock())
        print("%-19s  %-19s  %s%s" % (shown(each.start_time), shown(each.end_time), printable(each.server), "  (%s)" % over if over else ""))
        letters = "".join(letter for number, letter in LETTERS.items() if each.has_flag(number))
        words = ["renew until " + shown(each.renew_till)] if each.renew_till else []
        words += ["Flags: " + letters] if options.flags else []
        if words:
            print("\t" + ", ".join(words))
        if options.etypes:
            ticket_etype = find_number(each.ticket, "Ticket", "enc-part.etype")
            print("\tEtype (skey, tkt): %s, %s" % (etype_of(each.session_key.etype), etype_of(ticket_etype)))
    return 0


def run_kvno(options: argparse.Namespace) -> int:
    path, settings = cache_path(options.cache), settings_of(options)
    held = held_ticket(path, settings)
    failed = False
    for word in options.services:
        server = parsed(word, held.entry.client.realm)
        cache = _ccache.read(path)
        found = next((each for each in cache.entries if each.server.is_same(server) and each.client.is_same(held.entry.client)), None)
        if found is None or found.end_time <= settings.clock() + (cache.offset or 0):
            try:
                got = held.ticket_for(server.text, realms=options.realm)
            except (OSError, ValueError) as error:
                print("kvno: %s: %s" % (printable(server.text), why_not(error)), file=sys.stderr)
                failed = True
                continue
            found = got.entry
            others = tuple(each for each in cache.entries if each.is_setting or not each.server.is_same(server))
            with named(path):
                _ccache.write(path, cache._replace(entries=others + (found,)))
            LOG.info("Storing %s -> %s in FILE:%s", printable(found.client.text), printable(found.server.text), printable(path))
        print("%s: kvno = %d" % (printable(server.text), find_number(found.ticket, "Ticket", "enc-part.kvno")))
    return 1 if failed else 0


def run_kpasswd(options: argparse.Namespace) -> int:
    client = client_of(options)
    old, new = passwords_of(options.password_file, client)
    change_password(client, old, new, options.kdc or None, options.server or None, timeout=options.timeout, configuration=options.config, dns=options.dns)
    print("The password is changed.")
    return 0


def run_kdestroy(options: argparse.Namespace) -> int:
    path = cache_path(options.cache)
    try:
        os.unlink(path)
    except FileNotFoundError:
        raise Failed("no file of tickets: %s" % path) from None
    return 0


def run_capture(options: argparse.Namespace) -> int:
    from krb._capture_command import run_capture as run  # most commands need none of it

    return run(options)


COMMANDS: Dict[str, Callable[[argparse.Namespace], int]] = {
    "show": run_show, "accept": run_accept, "list": run_list, "capture": run_capture,
    "kinit": run_kinit, "klist": run_klist, "kvno": run_kvno, "kpasswd": run_kpasswd, "kdestroy": run_kdestroy,
}


def run(options: argparse.Namespace) -> int:
    """The status of a command; what is refused is told in a line."""
    try:
        with tracing(getattr(options, "trace", False)):
            return COMMANDS[options.command](options)
    except (Failed, OSError, ValueError, LookupError) as error:
        by_password = not (getattr(options, "use_keytab", False) or getattr(options, "keytab", None))
        print("%s: %s" % (options.command, why_not(error, by_password)), file=sys.stderr)
        return 2 if options.command == "accept" else 1


def main(given: Optional[List[str]] = None) -> int:
    words = sys.argv[1:] if given is None else given
    if words[:1] == ["web"]:
        from krb import web  # it has its own arguments, and most commands need none of it

        return ended(lambda: web.main(words[1:]), "web")
    failed = 2 if words[:1] == ["accept"] else 1
    return ended(lambda: run(parser_of(__version__).parse_args(words)), words[0] if words[:1] and words[0] in COMMANDS else "krb", failed)


if __name__ == "__main__":
    sys.exit(main())
