"""The commands of `krb` and their arguments. It needs nothing of the package: docs/krb_command loads it alone, and makes completions and compares the
manual page by it."""

import argparse
import datetime
import difflib
import os
import re
import sys
from typing import Any, Dict, List, NoReturn, Optional

__all__ = ["COMMANDS", "add_capture", "duration", "moment", "parser_of"]

_TIME = "%Y-%m-%dT%H:%M:%SZ"
_KEYTAB = "else $KRB5_KTNAME or /etc/krb5.keytab"
_PRINCIPAL = "as carol@HOME.TEST; else the user's name in the default realm"

# The commands, each with what it does; those of tickets are named as MIT Kerberos has them.
COMMANDS: Dict[str, str] = {
    "show": "what octets hold: of messages, tokens, PACs, keytabs, caches",
    "accept": "whether a service lets in the client of a token, and else why not",
    "list": "the entries of a keytab, a credential cache or a .kirbi, a line each",
    "capture": "the messages in a capture of a network, a line each",
    "web": "a page on 127.0.0.1 that shows octets in the browser",
    "kinit": "get a first ticket, by a password or a keytab",
    "klist": "list the tickets of a file, or the keys of a keytab (-k)",
    "kvno": "get tickets for services, and tell the versions of their keys",
    "kpasswd": "change a password",
    "kdestroy": "remove the file of tickets",
}
_LOOKS = ("show", "accept", "list", "capture", "web")
_HEAD = """usage: {0} COMMAND [OPTION].. [FILE]..
       {0} COMMAND --help | --help | --version

What octets of Kerberos hold, whom a service lets in, and tickets of a KDC. What
is shown and what is taken, a proved library decides.

"""
_CAPTURE = """It tells what goes by TCP and UDP to the ports 88 and 464 and comes from them, and tokens of Kerberos and SPNEGO in HTTP's
Authorization and WWW-Authenticate, and in binds of LDAP and SMB: a line for each, with the number of the packet, the time (UTC), addresses, the
kind, who asks for what, the error by name, and what keys opened in it. Keys that stand in what is opened open what follows. Names are
quoted as RFC 1964 has it. What is not read is told in a line, too. Kerberos in TLS is not seen. tshark reads the packets.

The status is 0; 1 where octets are not read, or where the capture ends in the middle of a packet or takes more than so many seconds; 2 where it
cannot be read at all."""


class Parser(argparse.ArgumentParser):
    """The parser of a command: a fault is told in one line that names it."""

    def error(self, message: str) -> NoReturn:
        self.exit(2, "%s: %s; see %s --help\n" % (self.prog, message, self.prog))


class _Whole(Parser):
    """The parser of `krb`, whose help is one screen."""

    def format_help(self) -> str:
        listed = [("  %-9s %s\n" % item, item[0] in _LOOKS) for item in COMMANDS.items()]
        looks, tickets = ("".join(line for line, is_look in listed if is_look == which) for which in (True, False))
        return _HEAD.format(self.prog) + looks + "\n" + tickets

    def parse_args(self, args: Any = None, namespace: Any = None) -> Any:
        words = sys.argv[1:] if args is None else list(args)
        if not words:
            self.error("a command is missing")
        if not words[0].startswith("-") and words[0] not in COMMANDS:
            near = difflib.get_close_matches(words[0], COMMANDS, 1)
            self.error("unknown command %s%s" % (ascii(words[0])[1:-1], " (did you mean %s?)" % near[0] if near else ""))
        found, unknown = self.parse_known_args(words, namespace)
        if unknown:
            what = "unknown option" if unknown[0].startswith("-") else "unexpected argument"
            Parser(prog="%s %s" % (self.prog, found.command)).error("%s %s" % (what, ascii(unknown[0])[1:-1]))
        return found


def duration(text: str) -> int:
    """Seconds of "10h", "1d12h", "3h30m", "90s", "36000", "10:30" or "10:30:00"."""
    found = re.fullmatch(r"(?:(\d+)d)?(?:(\d+)h)?(?:(\d+)m)?(?:(\d+)s?)?", text) if text else None
    if found is None:
        found = re.fullmatch(r"()(\d+):(\d{1,2})(?::(\d{1,2}))?", text)
    if found is None:
        raise argparse.ArgumentTypeError("no duration: %a" % text)
    days, hours, minutes, seconds = (int(each or 0) for each in found.groups())
    return ((days * 24 + hours) * 60 + minutes) * 60 + seconds


def moment(text: str) -> float:
    """The seconds since 1970 of a time."""
    try:
        return float(int(text)) if text.isdecimal() else datetime.datetime.strptime(text, _TIME).replace(tzinfo=datetime.timezone.utc).timestamp()
    except ValueError:
        raise argparse.ArgumentTypeError("no time: %a" % text) from None


def _seconds(text: str) -> float:
    """So many seconds, 0 or more."""
    try:
        found = float(text)
    except ValueError:
        found = -1.0
    if not 0 <= found < 1e9:
        raise argparse.ArgumentTypeError("no number of seconds: %a" % text)
    return found


def _add_show(parser: argparse.ArgumentParser) -> None:
    parser.add_argument("--as", dest="kind", metavar="KIND", help="as this type or format, as AS-REQ, token, PAC, keytab; else as the octets begin")
    parser.add_argument("--json", action="store_true", help="a line of JSON")
    parser.add_argument("--places", action="store_true", help="with the place of each value")
    parser.add_argument("--keytab", action="append", default=[], metavar="FILE", help="open what is encrypted with its keys; may be given more than once")
    parser.add_argument("--key-file", action="append", default=[], metavar="FILE", help="the same with the keys ETYPE:HEX of this file")
    parser.add_argument("--show-keys", action="store_true", help="the octets of keys and passwords, and not the word hidden")
    parser.add_argument("file", nargs="?", metavar="FILE", help="else, and for -, standard input")


def _add_accept(parser: argparse.ArgumentParser) -> None:
    parser.add_argument("--keytab", metavar="FILE", help="the service's keytab; " + _KEYTAB)
    parser.add_argument("--server", action="append", metavar="NAME", help="for this server alone, as HTTP/www.home.test; may be given more than once")
    parser.add_argument("--realm", action="append", metavar="REALM", help="clients of this realm alone; may be given more than once")
    parser.add_argument("--time", type=moment, metavar="T", help="when the token came: seconds since 1970, or as 2026-01-02T03:04:05Z; else now")
    parser.add_argument("--skew", type=int, default=300, metavar="S", help="by how many seconds clocks may differ (300)")
    parser.add_argument("--bare", dest="bare_request", action="store_true", help="an AP-REQ with no frame around it too")
    parser.add_argument("--other-checksum", action="store_true", help="an authenticator with another checksum than that of the GSS-API too")
    parser.add_argument("--pac", choices=("required", "ignored"), default="checked", help="else a PAC is checked where there is one")
    parser.add_argument("file", nargs="?", metavar="FILE", help="the token, as it stands in a header of HTTP or as octets; else, and for -, standard input")


def _add_list(parser: argparse.ArgumentParser) -> None:
    parser.add_argument("-k", dest="use_keytab", action="store_true", help="without FILE: the keytab of $KRB5_KTNAME, or /etc/krb5.keytab")
    parser.add_argument("--json", action="store_true", help="a line of JSON for each entry")
    parser.add_argument("file", nargs="?", metavar="FILE", help="else the cache of $KRB5CCNAME, or /tmp/krb5cc_UID; - is standard input")


def add_capture(parser: argparse.ArgumentParser) -> None:
    """The arguments of the command capture."""
    parser.formatter_class = argparse.RawDescriptionHelpFormatter
    parser.epilog = _CAPTURE
    parser.add_argument("file", metavar="FILE", help="a capture, as tcpdump, dumpcap or Wireshark writes it; - is standard input")
    parser.add_argument("--keytab", metavar="KEYTAB", action="append", default=[], help="keys that open what is encrypted; may stand more than once")
    parser.add_argument("--realm", metavar="REALM", action="append", default=[], help="messages that name this realm alone; may stand more than once")
    parser.add_argument("--name", metavar="NAME", action="append", default=[], help="messages that name this principal or component alone, as ann or HTTP/www.home.test")
    parser.add_argument("--error", metavar="ERROR", action="append", default=[], help="errors alone of this code or name, as 25 or KDC_ERR_PREAUTH_REQUIRED; any: all")
    parser.add_argument("--json", action="store_true", help="a line of JSON for each message")
    parser.add_argument("--show", action="store_true", help="the whole of each message, opened where a key fits")
    parser.add_argument("--show-keys", action="store_true", help="with --show: the octets of keys and passwords, too")
    parser.add_argument("--seconds", metavar="N", type=_seconds, help="stop after so many seconds (300 of a file, never of a pipe); 0: never")


def _add_cache(parser: argparse.ArgumentParser) -> None:
    parser.add_argument("-c", dest="cache", metavar="CACHE", help="the file of tickets; else $KRB5CCNAME or /tmp/krb5cc_UID")


def _add_ways(parser: argparse.ArgumentParser) -> None:
    """How KDCs are reached."""
    words = "HOST[:PORT], with tcp/ or udp/ before it over this alone, or https://HOST[:PORT]/PATH of a KDC proxy; may be given more than once"
    parser.add_argument("--kdc", action="append", metavar="KDC", help=words)
    parser.add_argument("--config", metavar="FILE", help="krb5.conf; else $KRB5_CONFIG or /etc/krb5.conf")
    parser.add_argument("--dns", action="store_true", help="ask DNS for the KDCs of a realm of which the file has none")
    parser.add_argument("--timeout", type=float, default=10.0, metavar="SECONDS", help="how long one KDC has for a reply (10)")
    parser.add_argument("--trace", action="store_true", help="say on standard error what is sent where and what comes; $KRB5_TRACE names a file for that")


def _add_kinit(parser: argparse.ArgumentParser) -> None:
    _add_cache(parser)
    parser.add_argument("-k", dest="use_keytab", action="store_true", help="by the keytab, and no password")
    parser.add_argument("-t", dest="keytab", metavar="KEYTAB", help="the keytab; " + _KEYTAB)
    parser.add_argument("-l", dest="lifetime", type=duration, metavar="LIFETIME", help="as 10h, 1d or 3h30m; else as long as the KDC allows")
    parser.add_argument("-r", dest="renewable", type=duration, metavar="LIFETIME", help="how long it may be renewed")
    parser.add_argument("-s", dest="start", type=duration, metavar="DURATION", help="from when on it is to be valid: a postdated ticket")
    parser.add_argument("-f", dest="forwardable", action="store_true", help="a forwardable ticket")
    parser.add_argument("-p", dest="proxiable", action="store_true", help="a proxiable ticket")
    parser.add_argument("-C", dest="canonicalize", action="store_true", help="the KDC may answer with another name of the client (RFC 6806)")
    parser.add_argument("-S", dest="server", metavar="SERVICE", help="for another service than the ticket-granting one")
    parser.add_argument("-R", dest="renew", action="store_true", help="renew the ticket of the file")
    parser.add_argument("-v", dest="validate", action="store_true", help="validate the postdated ticket of the file")
    parser.add_argument("--password-file", metavar="FILE", help="its first line is the password; - is standard input")
    _add_ways(parser)
    parser.add_argument("principal", nargs="?", metavar="PRINCIPAL", help=_PRINCIPAL)


def _add_klist(parser: argparse.ArgumentParser) -> None:
    _add_cache(parser)
    parser.add_argument("-k", dest="use_keytab", action="store_true", help="the keys of a keytab in place of the tickets of a file")
    parser.add_argument("-t", dest="keytab", metavar="KEYTAB", help="that keytab; " + _KEYTAB)
    parser.add_argument("-e", dest="etypes", action="store_true", help="with encryption types")
    parser.add_argument("-f", dest="flags", action="store_true", help="with flags")
    parser.add_argument("-s", dest="silent", action="store_true", help="write nothing; the status is 0 where there is a ticket-granting ticket that has not ended")


def _add_kvno(parser: argparse.ArgumentParser) -> None:
    _add_cache(parser)
    _add_ways(parser)
    parser.add_argument("--realm", action="append", default=[], metavar="REALM", help="another realm to which a KDC may refer; may be given more than once")
    parser.add_argument("services", nargs="+", metavar="SERVICE")


def _add_kpasswd(parser: argparse.ArgumentParser) -> None:
    words = "the server that changes passwords, as --kdc; else kpasswd_server of krb5.conf, or the hosts of its KDCs"
    parser.add_argument("--server", action="append", metavar="SERVER", help=words)
    parser.add_argument("--password-file", metavar="FILE", help="its first two lines are the old and the new password; - is standard input")
    _add_ways(parser)
    parser.add_argument("principal", nargs="?", metavar="PRINCIPAL", help=_PRINCIPAL)


_ADD = {
    "show": _add_show, "accept": _add_accept, "list": _add_list, "capture": add_capture,
    "kinit": _add_kinit, "klist": _add_klist, "kvno": _add_kvno, "kpasswd": _add_kpasswd, "kdestroy": _add_cache,
}


def parser_of(version: str, name: Optional[str] = None) -> argparse.ArgumentParser:
    """The parser of all commands; `name` is what the program is called."""
    called = os.path.basename(sys.argv[0] or "krb")
    parser = _Whole(prog=name or ("python3 -m krb" if called == "__main__.py" else called))
    parser.add_argument("--version", action="version", version="krb " + version)
    commands = parser.add_subparsers(dest="command", required=True, metavar="COMMAND", parser_class=Parser)
    for command, about in COMMANDS.items():
        added = commands.add_parser(command, help=about, description=about[0].upper() + about[1:] + ".")
        if command in _ADD:  # `krb.web` has its own
            _ADD[command](added)
    return parser


def known_options(parser: argparse.ArgumentParser) -> List[argparse.Action]:
    """The options and arguments of a parser, but for --help."""
    return [action for action in parser._actions if not isinstance(action, argparse._HelpAction)]
