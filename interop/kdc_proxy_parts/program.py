"""`jolmurig proxy` as a program that is run, and what it says, by the rules of this script's own."""

import judge
import mutants
import rules
from der import MESSAGES
from jolmurig import is_refused, ran
from octets import framed

NAMES = [MESSAGES[number] for number in judge.TYPES]
# What a line of an error begins with, by the rule that is broken.
WORDS = {
    "PROXY_TOO_LARGE": "proxy: TooLarge",
    "PROXY_NO_LENGTH": "proxy: NoLength",
    "PROXY_OTHER_LENGTH": "proxy: OtherLength",
    "PROXY_NO_DOMAIN": "proxy: NoTargetDomain",
    "PROXY_OTHER_KIND": "proxy: OtherKind",
    "PROXY_FRAME_LENGTH": "proxy: FrameLength",
    "INVALID": "KDC-PROXY-MESSAGE: InvalidData",
    "TRUNCATED": "KDC-PROXY-MESSAGE: TruncatedData",
    "UNSUPPORTED": "KDC-PROXY-MESSAGE: UnsupportedValue",
}
# The same of a rule of a message, behind its name.
OF_MESSAGES = {
    "PROXY_INVALID": "InvalidData",
    "PROXY_TRUNCATED": "TruncatedData",
    "PROXY_UNSUPPORTED": "UnsupportedValue",
    "PROXY_PVNO": "Pvno",
    "PROXY_MSG_TYPE": "MsgType",
}


def name(octets):
    """A realm on the line of a request."""
    return "".join(chr(octet) if 0x20 < octet < 0x7F and octet not in b":\\" else "\\x%02x" % octet for octet in octets)


def line_of(request):
    other = "" if judge.names_one_realm(request) else " (the message names %s)" % name(request.realm)
    return "%s %s%s\n" % (request.service, name(request.target_domain), other)


def lines_of(broken):
    """What the line of an error may begin with, by the rules that may be broken first."""
    beginnings = [WORDS[rule] for rule in broken if rule in WORDS]
    beginnings += ["%s: %s" % (message, OF_MESSAGES[rule]) for rule in broken if rule in OF_MESSAGES for message in NAMES]
    return tuple("jolmurig: %s: " % each for each in beginnings)


class Program:
    """The program, at this path."""

    def __init__(self, path):
        self.path = path

    def run(self, direction, octets):
        return ran(["proxy", direction], octets, self.path)

    def is_refused(self, done, broken):
        """Whether nothing was written, and the line names a rule that may be the first that is broken."""
        return is_refused(done) and done.stderr.decode("ascii").startswith(lines_of(broken))

    def is_right(self, octets):
        """Whether the program says of the octets as a request what the judge does."""
        request, done = judge.outcome(octets), self.run("request", octets)
        if request is None:
            return self.is_refused(done, rules.of_request(octets))
        return (done.returncode, done.stdout, done.stderr.decode("ascii")) == (0, framed(request.message), line_of(request))

    def is_right_reply(self, stream):
        """The same of what a server sent over a stream."""
        broken, done = rules.of_reply(stream), self.run("reply", stream)
        if broken:
            return self.is_refused(done, broken)
        return (done.returncode, done.stdout, done.stderr) == (0, mutants.body(stream, None), b"")
