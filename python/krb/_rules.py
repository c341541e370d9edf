"""The rules that a library's answer names by number, with their texts: made of krb.h by docs/rules --write, and never changed by hand."""

import enum
from typing import Dict

__all__ = ["CLIENT_TEXTS", "ClientRule", "NEGOTIATION_TEXTS", "NegotiationRule", "Rule", "TEXTS"]


class Rule(enum.IntEnum):
    """The rules of an acceptor, with their numbers in krb.h; docs/ACCEPTOR.md has their order. `NONE` is of no refusal."""

    NONE = 0
    NOT_REQUEST = 1
    VERSION = 2
    MESSAGE_TYPE = 3
    TICKET_VERSION = 4
    OPTIONS = 5
    USER_TO_USER = 6
    NOT_US = 7
    NO_KEY = 8
    KEY_VERSION = 9
    TICKET_SUITE = 10
    TICKET = 11
    FLAGS = 12
    SESSION_SUITE = 13
    AUTHENTICATOR = 14
    AUTHENTICATOR_VERSION = 15
    MICROSECONDS = 16
    SEQUENCE_NUMBER = 17
    SUBKEY = 18
    OTHER_CLIENT = 19
    OTHER_ADDRESS = 20
    SKEW = 21
    NOT_YET_VALID = 22
    INVALID = 23
    EXPIRED = 24
    PATH = 25
    CRITICAL_DATA = 26
    DATA_FORM = 27
    UNREMEMBERED = 28
    REPEAT = 29
    FRAME = 30
    PAC_MISSING = 31
    PAC_FORM = 32
    PAC_CHECKSUM = 33
    PAC_CLIENT = 34
    CHECKSUM_TYPE = 35
    CHECKSUM_LAYOUT = 36
    BINDINGS = 37
    DELEGATION = 38
    ANONYMOUS = 39
    CLIENT_REALM = 40
    PAC_PLACE = 41


TEXTS: Dict[Rule, str] = {
    Rule.NONE: "no rule",
    Rule.NOT_REQUEST: "the message is not an AP-REQ",
    Rule.VERSION: "pvno is not 5",
    Rule.MESSAGE_TYPE: "msg-type is not 14",
    Rule.TICKET_VERSION: "tkt-vno is not 5",
    Rule.OPTIONS: "ap-options has fewer than 32 bits",
    Rule.USER_TO_USER: "the ticket is under a session key, as for user-to-user authentication",
    Rule.NOT_US: "no key for the server that the ticket names, or no client is let in for it",
    Rule.NO_KEY: "no key of the ticket's encryption type",
    Rule.KEY_VERSION: "no key of the kvno that the ticket names",
    Rule.TICKET_SUITE: "the ticket's encryption type is not supported or permitted",
    Rule.TICKET: "no key decrypts the ticket",
    Rule.FLAGS: "the ticket's flags have fewer than 32 bits",
    Rule.SESSION_SUITE: "the session key's encryption type is not permitted, or the authenticator names another",
    Rule.AUTHENTICATOR: "the session key does not decrypt the authenticator",
    Rule.AUTHENTICATOR_VERSION: "authenticator-vno is not 5",
    Rule.MICROSECONDS: "cusec is not of 0 to 999999",
    Rule.SEQUENCE_NUMBER: "seq-number is not of 0 to 4294967295",
    Rule.SUBKEY: "the subkey's encryption type is not permitted, or its length is another",
    Rule.OTHER_CLIENT: "the authenticator names another client than the ticket",
    Rule.OTHER_ADDRESS: "the ticket is not for the client's address",
    Rule.SKEW: "clock skew",
    Rule.NOT_YET_VALID: "the ticket is not yet valid",
    Rule.INVALID: "the ticket has the flag INVALID",
    Rule.EXPIRED: "the ticket has expired",
    Rule.PATH: "no KDC has checked the path of realms",
    Rule.CRITICAL_DATA: "authorization data that a service has to understand, and does not",
    Rule.DATA_FORM: "the authorization data is malformed",
    Rule.UNREMEMBERED: "the authenticator is older than the replay cache",
    Rule.REPEAT: "the authenticator was accepted before",
    Rule.FRAME: "not a token of Kerberos with an AP-REQ",
    Rule.PAC_MISSING: "the ticket has no PAC",
    Rule.PAC_FORM: "the PAC is malformed, or lacks a buffer that is checked",
    Rule.PAC_CHECKSUM: "the PAC's server checksum does not hold",
    Rule.PAC_CLIENT: "the PAC is of another client than the ticket, or of another time",
    Rule.CHECKSUM_TYPE: "the authenticator has no checksum of type 0x8003",
    Rule.CHECKSUM_LAYOUT: "the authenticator's checksum is malformed",
    Rule.BINDINGS: "the client's channel bindings are others than the service's",
    Rule.DELEGATION: "the delegated credentials cannot be decrypted or read",
    Rule.ANONYMOUS: "the client is anonymous",
    Rule.CLIENT_REALM: "no client of this realm is let in",
    Rule.PAC_PLACE: "a PAC stands, or may stand, where nobody verifies it",
}


class NegotiationRule(enum.IntEnum):
    """The rules of a negotiation (docs/NEGOTIATION.md), with their numbers in krb.h. `NONE` is of no refusal."""

    NONE = 0
    NO_STATE = 1
    REJECTED = 2
    NO_MECHANISM = 3
    SECOND_MECHANISM = 4
    UNKNOWN_MECHANISM = 5
    UNPROTECTED = 6
    LATE_REQUEST = 7
    NO_TOKEN = 8
    UNEXPECTED_TOKEN = 9
    MECHANISM_FAILED = 10
    EARLY_MIC = 11
    WRONG_MIC = 12
    NO_MIC = 13
    EARLY_COMPLETION = 14
    FINISHED = 15
    UNREAD = 256


NEGOTIATION_TEXTS: Dict[NegotiationRule, str] = {
    NegotiationRule.NONE: "no rule",
    NegotiationRule.NO_STATE: "the first reply has no negState",
    NegotiationRule.REJECTED: "the peer rejects",
    NegotiationRule.NO_MECHANISM: "the offer lists no mechanism, or the first reply names none",
    NegotiationRule.SECOND_MECHANISM: "a later message names a mechanism",
    NegotiationRule.UNKNOWN_MECHANISM: "none of the mechanisms is supported, or the reply names one that was not offered",
    NegotiationRule.UNPROTECTED: "MICs have to be exchanged, and the mechanism has no integrity",
    NegotiationRule.LATE_REQUEST: "request-mic in another message than the acceptor's first",
    NegotiationRule.NO_TOKEN: "the mechanism waits for a token, and the message has none",
    NegotiationRule.UNEXPECTED_TOKEN: "the message has a token for which no mechanism waits",
    NegotiationRule.MECHANISM_FAILED: "the mechanism makes no step",
    NegotiationRule.EARLY_MIC: "a MIC before the mechanism's context is established",
    NegotiationRule.WRONG_MIC: "the MIC does not hold of the list of mechanisms",
    NegotiationRule.NO_MIC: "a MIC has to come, or there is nothing to go on with",
    NegotiationRule.EARLY_COMPLETION: "accept-completed while this side has a token to send",
    NegotiationRule.FINISHED: "a message after this side was complete",
    NegotiationRule.UNREAD: "the octets are no message for which this side waits",
}


class ClientRule(enum.IntEnum):
    """Why no ticket is taken, or no request made, with the numbers of krb.h (docs/CLIENT.md). `NONE` is of no refusal."""

    NONE = 0
    OTHER_MESSAGE = 1
    MESSAGE = 2
    PVNO = 3
    MSG_TYPE = 4
    OPENING = 5
    CLIENT = 6
    TICKET_VERSION = 7
    TICKET = 8
    UNASKED = 9
    ENCRYPTION_TYPE = 10
    NONCE = 11
    SERVER = 12
    SESSION_KEY = 13
    START = 14
    END = 15
    RENEW_TILL = 16
    FLAGS = 17
    ADDRESSES = 18
    TIME = 19
    METHOD_DATA = 20
    NO_INFO = 21
    INFO = 22
    NO_SUITE = 23
    NO_KEY = 24
    PASSWORD_SUITE = 25
    PARAMETERS = 26
    ITERATIONS = 27
    KDC = 28
    REQUEST_NONCE = 29
    REQUEST_OPTION = 30
    REQUEST_MICROSECONDS = 31
    REQUEST_TIME = 32
    REQUEST_DELEGATION = 33
    REQUEST_SUBKEY = 34
    REQUEST_CONFOUNDER = 35
    REQUEST_KEY = 36
    UNAUTHENTICATED = 37
    NO_CHECKSUM = 38
    CHECKSUM = 39
    SESSION_KEY_SIZE = 40
    FLAGS_SIZE = 41


CLIENT_TEXTS: Dict[ClientRule, str] = {
    ClientRule.NONE: "no rule",
    ClientRule.OTHER_MESSAGE: "the message is not one that the exchange waits for",
    ClientRule.MESSAGE: "the octets are not the one encoding of the message",
    ClientRule.PVNO: "the protocol version is not 5",
    ClientRule.MSG_TYPE: "the message type is that of another message",
    ClientRule.OPENING: "the key does not open the reply, as where a password is wrong",
    ClientRule.CLIENT: "the reply names another client than asked",
    ClientRule.TICKET_VERSION: "the version of the ticket is not 5",
    ClientRule.TICKET: "the ticket is for another server than was asked for",
    ClientRule.UNASKED: "the reply is under an encryption type that was not asked for",
    ClientRule.ENCRYPTION_TYPE: "the reply is under another encryption type than the key's",
    ClientRule.NONCE: "the reply is to another request",
    ClientRule.SERVER: "the reply names another server than was asked for",
    ClientRule.SESSION_KEY: "the session key is of an encryption type that was not asked for",
    ClientRule.START: "the ticket does not start when it was asked for, or the clocks differ by more than the skew",
    ClientRule.END: "the ticket ends later than was asked for, or before it starts",
    ClientRule.RENEW_TILL: "the ticket is renewable for longer than was asked for, or without saying that it is",
    ClientRule.FLAGS: "the ticket has a flag that was not asked for",
    ClientRule.ADDRESSES: "the ticket is for addresses",
    ClientRule.TIME: "the reply does not have the time that was sent",
    ClientRule.METHOD_DATA: "the KDC's data of pre-authentication are no encoding",
    ClientRule.NO_INFO: "the KDC does not tell of the client's keys",
    ClientRule.INFO: "what the KDC tells of the client's keys is no encoding",
    ClientRule.NO_SUITE: "the KDC has no key of the client's under an encryption type that was asked for",
    ClientRule.NO_KEY: "the keytab has no key of the client's of the encryption type",
    ClientRule.PASSWORD_SUITE: "no password becomes a key of the encryption type",
    ClientRule.PARAMETERS: "the KDC's parameters for the key of a password are not four octets",
    ClientRule.ITERATIONS: "the KDC asks for fewer or more iterations for the key of a password than are taken",
    ClientRule.KDC: "the KDC reports an error",
    ClientRule.REQUEST_NONCE: "the nonce is 2^31 or more",
    ClientRule.REQUEST_OPTION: "an option has another number than 0 to 31",
    ClientRule.REQUEST_MICROSECONDS: "the microseconds are not 0 to 999999",
    ClientRule.REQUEST_TIME: "a time is before the year 0 or past 9999",
    ClientRule.REQUEST_DELEGATION: "credentials are not delegated",
    ClientRule.REQUEST_SUBKEY: "the subkey is of another size than its encryption type's",
    ClientRule.REQUEST_CONFOUNDER: "the confounder is of another size than the encryption type's",
    ClientRule.REQUEST_KEY: "the key is of another size than its encryption type's",
    ClientRule.UNAUTHENTICATED: "the reply renames, and the request had no pre-authentication",
    ClientRule.NO_CHECKSUM: "the reply renames, and has no checksum of the request",
    ClientRule.CHECKSUM: "the reply renames, and its checksum is not that of the request",
    ClientRule.SESSION_KEY_SIZE: "the session key has another size than its encryption type's",
    ClientRule.FLAGS_SIZE: "the ticket has fewer than 32 flags",
}
