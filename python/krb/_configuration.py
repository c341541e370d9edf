"""What of krb5.conf a client reads (MIT Kerberos, "krb5.conf"): the default realm, and how a realm's KDCs are reached."""

import os
import re
from typing import Dict, List, Optional, Union

__all__ = ["Configuration"]

Tree = Dict[str, List[Union[str, "Tree"]]]

_USUAL = "/etc/krb5.conf"
_DEEPEST = 10  # files that include one another
_INCLUDED = re.compile(r"[A-Za-z0-9_-]+|[^.].*\.conf")
_ESCAPES = {"n": "\n", "t": "\t", "b": "\b"}


def _value(text: str) -> str:
    """The value of a line: in quotation marks with escapes, or as it stands."""
    if not text.startswith('"'):
        return text
    found = re.match(r'"((?:[^"\\]|\\.)*)"', text)
    if found is None:
        raise ValueError("no quotation mark at the end of %a" % text)
    return re.sub(r"\\(.)", lambda escape: _ESCAPES.get(escape[1], escape[1]), found[1])


class _Reader:
    """Reads one file, and what it includes, into a tree: sections and subsections by their names, each name's values in their order."""

    def __init__(self, tree: Tree, depth: int = 0) -> None:
        self._tree, self._depth = tree, depth
        self._around: List[Tree] = []

    def read(self, path: str) -> None:
        with open(path, encoding="utf-8", errors="surrogateescape") as file:
            lines = file.read().splitlines()
        for number, line in enumerate(lines, 1):
            try:
                self._line(line.strip())
            except ValueError as error:
                raise ValueError("%s, line %d: %s" % (path, number, error)) from None
        if len(self._around) > 1:
            raise ValueError("%s: a brace is not closed" % path)

    def _include(self, words: List[str]) -> None:
        if self._depth == _DEEPEST:
            raise ValueError("files include one another")
        kind, path = words
        paths = [path] if kind == "include" else [os.path.join(path, each) for each in sorted(os.listdir(path)) if _INCLUDED.fullmatch(each)]
        for each in paths:
            _Reader(self._tree, self._depth + 1).read(each)

    def _line(self, line: str) -> None:
        words = line.split(None, 1)
        if not words or line[0] in "#;":
            return
        if words[0] in ("include", "includedir") and len(words) == 2:
            self._include(words)
        elif words[0] == "module":
            raise ValueError("modules are not read")
        elif line.startswith("["):
            found = re.fullmatch(r"\[([^\]]*)\]\*?", line)
            if found is None or len(self._around) > 1:
                raise ValueError("no section %a here" % line)
            self._around = [self._into(self._tree, found[1].strip())]
        elif line.rstrip("*") == "}":
            if len(self._around) < 2:
                raise ValueError("a brace that nothing opens")
            self._around.pop()
        else:
            name, equals, value = line.partition("=")
            name, value = name.strip().rstrip("*"), value.strip()
            if not equals or not name or not self._around:
                raise ValueError("no line NAME = VALUE of a section: %a" % line)
            if value == "{":
                self._around.append(self._into(self._around[-1], name))
            else:
                self._around[-1].setdefault(name, []).append(_value(value))

    @staticmethod
    def _into(tree: Tree, name: str) -> Tree:
        """The subsection of this name, which may stand in several places."""
        listed = tree.setdefault(name, [])
        for each in listed:
            if isinstance(each, dict):
                return each
        made: Tree = {}
        listed.append(made)
        return made


class Configuration:
    """The files of a path, or of $KRB5_CONFIG, which has ":" between several, or /etc/krb5.conf, which need not be there. Of a value that stands twice the first counts.

    ValueError: a file is not laid out as one. OSError: a file that is named cannot be read."""

    def __init__(self, path: Optional[str] = None) -> None:
        self._tree: Tree = {}
        named = os.environ.get("KRB5_CONFIG") if path is None else path
        for each in (named or _USUAL).split(":"):
            if named is not None or os.path.exists(each):
                _Reader(self._tree).read(each)

    def values(self, *names: str) -> List[str]:
        """The values of a name in a section, and in a subsection of that."""
        around = [self._tree]
        for name in names[:-1]:
            around = [each for tree in around for each in tree.get(name, []) if isinstance(each, dict)]
        return [each for tree in around for each in tree.get(names[-1], []) if isinstance(each, str)]

    @property
    def default_realm(self) -> Optional[str]:
        """default_realm of [libdefaults]."""
        return next(iter(self.values("libdefaults", "default_realm")), None)

    def kdcs(self, realm: str) -> List[str]:
        """The KDCs of a realm: HOST[:PORT], tcp/ or udp/ before it, or https://HOST[:PORT]/PATH."""
        return [word for line in self.values("realms", realm, "kdc") for word in line.split()]

    def password_servers(self, realm: str) -> List[str]:
        """Where passwords are changed: the lines kpasswd_server; else the hosts of the KDCs, with the port of that service, and their proxies."""
        words = [word for line in self.values("realms", realm, "kpasswd_server") for word in line.split()]
        return words or [each if each.startswith("https://") else re.sub(r"(?<![:\]]):[0-9]+$|(?<=\]):[0-9]+$", "", each) for each in self.kdcs(realm)]

    def anchors(self, realm: str) -> List[str]:
        """The files and folders of certificates that proxies to a realm's KDCs are trusted by: FILE:PATH or DIR:PATH."""
        return self.values("realms", realm, "http_anchors")
