"""Why there is no ticket, in words for whoever typed a command. What a rule is, docs/CLIENT.md says."""

from typing import Dict

from krb._exchange import NotGranted
from krb._output import reason
from krb._rules import CLIENT_TEXTS, ClientRule

__all__ = ["why_not"]

# What errors of a KDC mean (RFC 4120, 7.5.9), by their codes.
_ERRORS: Dict[int, str] = {
    1: "the account of the client has expired",
    2: "the account of the service has expired",
    6: "the KDC has no client of this name",
    7: "the KDC has no service of this name",
    12: "the KDC's rules do not allow it",
    13: "the KDC does not do what an option asks for",
    14: "the KDC and the client have no encryption type in common",
    18: "the account of the client is locked",
    23: "the password has expired: change it",
    24: "the password, or the key, is wrong",
    29: "the KDC cannot ask its database now",
    32: "the ticket has ended",
    33: "the ticket is not valid yet",
    37: "the clocks of this machine and of the KDC differ by too much",
    68: "the client is of another realm",
}


def why_not(error: Exception, by_password: bool = True) -> str:
    """The line of an error, after the name of the command. Of a refusal the rule stands at its end."""
    if not isinstance(error, NotGranted):
        return reason(error)
    if error.rule == ClientRule.KDC:
        meant = _ERRORS.get(error.code)
        told = "the KDC reports %s (%d)" % (error.error or "an error", error.code)
        return told if meant is None else "%s: %s" % (told, meant)
    if error.rule == ClientRule.OPENING:
        text = "the password is wrong: its key does not open the KDC's reply" if by_password else "the key is not that of the KDC: it does not open the reply"
    else:
        text = CLIENT_TEXTS[error.rule]
    return "%s (%s)" % (text, error.rule.name)
