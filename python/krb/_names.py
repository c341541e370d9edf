"""Names of clients and services (RFC 4120, 6.2) as text (RFC 1964, 2.1.1)."""

from typing import NamedTuple, Optional, Tuple

__all__ = ["Name", "parsed", "ticket_granting"]

PRINCIPAL, SERVICE, SERVICE_OF_HOST = 1, 2, 3  # NT-PRINCIPAL, NT-SRV-INST, NT-SRV-HST (RFC 4120, 6.2)
_TICKET_GRANTING = "krbtgt"


def _quoted(text: str) -> str:
    """A component, or a realm: a backslash stands before `/`, `@` and a backslash."""
    return "".join("\\" + each if each in "\\/@" else each for each in text)


class Name(NamedTuple):
    """A name with its realm. `name_type` is a number (RFC 4120, 6.2)."""

    realm: str
    components: Tuple[str, ...]
    name_type: int = PRINCIPAL

    @property
    def text(self) -> str:
        """As "carol@HOME.TEST", or "HTTP/www.home.test@HOME.TEST"."""
        return "/".join(map(_quoted, self.components)) + "@" + _quoted(self.realm)

    @property
    def octets(self) -> bytes:
        """The text for the library, which has names of ASCII alone."""
        return self.text.encode("ascii")

    @property
    def granting_realm(self) -> Optional[str]:
        """The realm whose KDC takes tickets for this server; None of a server that is no KDC (RFC 4120, 7.3)."""
        return self.components[1] if len(self.components) == 2 and self.components[0] == _TICKET_GRANTING else None

    def is_same(self, other: "Name") -> bool:
        """Whether both are the same name: a name's type says nothing about that (RFC 4120, 6.2)."""
        return self[:2] == other[:2]


def parsed(text: str, realm: Optional[str] = None, name_type: int = PRINCIPAL) -> Name:
    """The name that a text is; `realm` is that of a text without one.

    ValueError: there is no realm, an empty one or two; a backslash stands before another character than `/`, `@` and itself, or at the end; it is not ASCII."""
    parts, in_realm, quotes = [""], False, False
    for each in text:
        if quotes:
            if each not in "\\/@":
                raise ValueError("a backslash before %a in a name" % each)
            parts[-1], quotes = parts[-1] + each, False
        elif each == "\\":
            quotes = True
        elif each == "@":
            if in_realm:
                raise ValueError("a name with two realms")
            parts.append("")
            in_realm = True
        elif each == "/" and not in_realm:
            parts.append("")
        else:
            parts[-1] += each
    if quotes:
        raise ValueError("a name that ends in a backslash")
    if not in_realm:
        if realm is None:
            raise ValueError("a name without a realm")
        parts.append(realm)
    if not parts[-1]:
        raise ValueError("a name with an empty realm")
    if not text.isascii() or not parts[-1].isascii():
        raise ValueError("a name with characters that are not ASCII")
    return Name(parts[-1], tuple(parts[:-1]), name_type)


def service_type(name: Name) -> int:
    """The type of a server's name: of a host where it has two components and is no KDC (RFC 4120, 6.2)."""
    return SERVICE_OF_HOST if len(name.components) == 2 and name.granting_realm is None else SERVICE


def ticket_granting(realm: str, of: Optional[str] = None) -> Name:
    """The name of a realm's ticket-granting service (RFC 4120, 7.3), in its own realm or in the one that refers to it."""
    return Name(realm if of is None else of, (_TICKET_GRANTING, realm), SERVICE)
