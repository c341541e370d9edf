"""Tries how often calls of the Python package cross to the library for C: try_crossings.py MESSAGES, in an environment that has the package installed. Each is made once
before, when names of numbers are learnt, and then crosses once, also where its answer is large. The last line is `N passed, N failed`."""

import ctypes
import sys

_loads, _crossings = ctypes.CDLL, []


class _Counted:
    """A function of the library that is counted."""

    def __init__(self, function, name):
        self.__dict__.update(function=function, name=name)

    def __getattr__(self, name):
        return getattr(self.function, name)

    def __setattr__(self, name, value):
        setattr(self.function, name, value)

    def __call__(self, *arguments):
        _crossings.append(self.name)
        return self.function(*arguments)


class _Counting:
    """The library, whose functions are counted."""

    def __init__(self, path):
        self.library = _loads(path)

    def __getattr__(self, name):
        return _Counted(getattr(self.library, name), name)


ctypes.CDLL = _Counting

import krb  # noqa: E402
from counting import ended, expect, outcome  # noqa: E402
from tables import rows_in  # noqa: E402

CKSUMTYPES = {16: 12, 17: 15, 18: 16, 19: 19, 20: 20}


def try_once(what, call, *arguments, times=1):
    """What a call returns, which crosses once, or so many times, when it is made again."""
    call(*arguments)
    _crossings.clear()
    answer = call(*arguments)
    expect(len(_crossings) == times, "%s crosses %d times: %s" % (what, len(_crossings), ", ".join(_crossings[:9])))
    return answer


def try_suite(etype, octets):
    key, cksumtype = bytes(range(krb.crypto.key_size(etype))), CKSUMTYPES[etype]
    for form in (bytes, bytearray, memoryview) if len(octets) < 100 else (bytes,):
        sealed = try_once("encrypt", krb.crypto.encrypt, etype, form(key), 2, form(octets))
        opened = try_once("decrypt", krb.crypto.decrypt, etype, form(key), 2, form(sealed))
        expect(opened[: len(octets)] == octets and not any(opened[len(octets) :]), "etype %d, %d octets: opened otherwise" % (etype, len(octets)))
    kept = try_once("KeptKey", krb.crypto.KeptKey, etype, key, 2)
    expect(try_once("KeptKey.decrypt", kept.decrypt, try_once("KeptKey.encrypt", kept.encrypt, octets)) == opened, "etype %d: a kept key" % etype)
    total = try_once("checksum", krb.crypto.checksum, cksumtype, key, 2, octets)
    expect(try_once("verify_checksum", krb.crypto.verify_checksum, cksumtype, key, 2, octets, total) is None, "a checksum is refused")
    if etype == 16:
        return
    side = krb.gss.TokenKey(etype, key, krb.gss.Sender.INITIATOR, False)
    expect(try_once("verify_mic", krb.gss.verify_mic, side, octets, try_once("make_mic", krb.gss.make_mic, side, 7, octets)) == 7, "a MIC")
    for token in (try_once("wrap", krb.gss.wrap, side, 7, octets), try_once("wrap_in_clear", krb.gss.wrap_in_clear, side, 7, octets)):
        expect(try_once("unwrap", krb.gss.unwrap, side, token)[:2] == (octets, 7), "a Wrap token")


def try_message(number, octets):
    try_once("messages.check", krb.messages.check, number, octets)
    tree = try_once("decode", krb.decode, octets)
    try_once("items", krb.items, octets)
    try_once("decode with a key", krb.decode, octets, None, None, [(18, bytes(32))])
    if number in (10, 12):
        realm = try_once("find", krb.find, octets, krb.type_of(octets), "req-body.realm")
        if isinstance(outcome(krb.proxy.write_request, octets, realm), krb.Status):
            return
        request = try_once("proxy.read_request", krb.proxy.read_request, try_once("proxy.write_request", krb.proxy.write_request, octets, realm))
        names = [tree["req-body"].get(name, {}).get("name-string") for name in ("cname", "sname")]
        told = [None if name is None else [component.decode("ascii") for component in name] for name in (request.client, request.server)]
        expect((request.realm, told) == (realm, [name or None for name in names]), "a request tells other names: %s" % (request,))


def main():
    for etype in CKSUMTYPES:
        for size in (0, 1, 8, 15, 16, 17, 64, 1000, 65499, 65500, 65507, 65535, 65536):
            try_suite(etype, bytes(range(256)) * (size // 256) + bytes(size % 256))
    for number, digits in rows_in(sys.argv[1]):
        try_message(int(number), bytes.fromhex(digits))
    return ended()


if __name__ == "__main__":
    sys.exit(main())
