"""Where the commands find files of tickets and keytabs, as those of MIT Kerberos do."""

import os
from typing import Optional

__all__ = ["Failed", "cache_path", "keytab_path"]


class Failed(Exception):
    """What a command says on its one line of an error."""


def cache_path(word: Optional[str]) -> str:
    """The file of tickets: that of -c, of $KRB5CCNAME, or /tmp/krb5cc_UID."""
    word = word or os.environ.get("KRB5CCNAME") or "/tmp/krb5cc_%d" % os.getuid()
    kind, colon, path = word.partition(":")
    if not colon or "/" in kind:
        return word
    if kind != "FILE" or not path:
        raise Failed("%s is no cache in a file" % ascii(word)[1:-1])
    return path


def keytab_path(word: Optional[str]) -> str:
    """The keytab: that of -t, of $KRB5_KTNAME, or /etc/krb5.keytab."""
    word = word or os.environ.get("KRB5_KTNAME") or "/etc/krb5.keytab"
    kind, colon, path = word.partition(":")
    if not colon or "/" in kind:
        return word
    if kind not in ("FILE", "WRFILE") or not path:
        raise Failed("%s is no keytab in a file" % ascii(word)[1:-1])
    return path
