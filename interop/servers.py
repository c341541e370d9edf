"""Servers on 127.0.0.1: between a client and a KDC relays that keep or change what goes by, and others that are of no use or of little; and a name server."""

import socket
import struct
import threading
import time

from octets import framed

AS_REP, TGS_REP = 0x6B, 0x6D


def read(link, size):
    came = b""
    while len(came) < size:
        part = link.recv(size - len(came))
        if not part:
            raise ConnectionError("it ended early")
        came += part
    return came


def asked(port, request):
    """What the KDC at this port replies over TCP."""
    with socket.create_connection(("127.0.0.1", port), 20) as link:
        link.sendall(framed(request))
        return read(link, struct.unpack(">I", read(link, 4))[0])


class Server:
    """Serves each TCP connection in a thread by `serve`; `begins` is called before that is there."""

    seconds = 20  # that a connection may be silent

    def __init__(self, port=0):
        self._listener = socket.create_server(("127.0.0.1", port))
        self.port = self._listener.getsockname()[1]
        self.kdc = "tcp/127.0.0.1:%d" % self.port
        threading.Thread(target=self._accept, daemon=True).start()

    def _accept(self):
        while True:
            try:
                link, _ = self._listener.accept()
            except OSError:
                return
            self.begins()
            threading.Thread(target=self._served, args=(link,), daemon=True).start()

    def _served(self, link):
        with link:
            link.settimeout(self.seconds)
            try:
                self.serve(link)
            except OSError:
                pass

    def begins(self):
        pass

    def serve(self, link):
        raise NotImplementedError

    def stop(self):
        self._listener.shutdown(socket.SHUT_RDWR)
        self._listener.close()


class Relay(Server):
    """Passes requests on to the KDC, by `request`; `change`, where it is set, has each request with its AS-REP or TGS-REP, or with `any` each reply, and tells what goes
    back instead."""

    def __init__(self, to, port=0):
        self.to, self.change, self.kept, self.request, self.any = to, None, [], lambda octets: octets, False
        super().__init__(port)

    def serve(self, link):
        request = self.request(read(link, struct.unpack(">I", read(link, 4))[0]))
        reply = asked(self.to, request)
        self.kept.append((request, reply))
        if self.change is not None and (self.any or reply[:1] in (bytes([AS_REP]), bytes([TGS_REP]))):
            reply = self.change(request, reply)
        link.sendall(framed(reply))


class Keeping(Server):
    """Passes all octets on both ways, and keeps those that come for the server. Where `answer` is set they are not sent on: it is called with the connection to
    answer in the server's place."""

    seconds = 60

    def __init__(self, to):
        self.to, self.answer, self._kept, self._lock, self._open = to, None, [], threading.Lock(), 0
        super().__init__()

    def begins(self):
        with self._lock:
            self._open += 1

    def serve(self, link):
        kept = bytearray()
        with self._lock:
            self._kept.append(kept)
        try:
            if self.answer is not None:
                kept += link.recv(1 << 20)
                self.answer(link)
                return
            with socket.create_connection(("127.0.0.1", self.to), self.seconds) as server:
                back = threading.Thread(target=self._back, args=(server, link), daemon=True)
                back.start()
                while True:
                    part = link.recv(1 << 20)
                    kept += part
                    if not part:
                        break
                    server.sendall(part)
                server.shutdown(socket.SHUT_WR)
                back.join()
        finally:
            link.close()
            with self._lock:
                self._open -= 1

    @staticmethod
    def _back(server, link):
        try:
            while True:
                part = server.recv(1 << 20)
                if not part:
                    break
                link.sendall(part)
            link.shutdown(socket.SHUT_RDWR)
        except OSError:
            pass

    def take(self):
        """What came since the last time: the octets of each connection, once all have ended."""
        end = time.monotonic() + 60
        while time.monotonic() < end:
            with self._lock:
                if not self._open:
                    kept, self._kept = self._kept, []
                    return [bytes(each) for each in kept]
            time.sleep(0.001)
        raise TimeoutError("a connection of the relay does not end")


class Saying(Server):
    """Sends these octets to whoever sends some, `times` times with `pause` seconds between; then it closes, or waits where `waits` is true."""

    def __init__(self, octets, times=1, pause=0.0, waits=False):
        self.said = octets, times, pause, waits
        super().__init__()

    def serve(self, link):
        octets, times, pause, waits = self.said
        link.recv(1 << 16)
        for _ in range(times):
            link.sendall(octets)
            time.sleep(pause)
        if waits:
            link.recv(1)


class Datagrams:
    """A UDP server on 127.0.0.1: `answer` has the number of each datagram, counted from 0, and its octets, and tells the datagrams that go back."""

    def __init__(self, answer, port=0):
        self._answer, self.count = answer, 0
        self._link = socket.socket(socket.AF_INET, socket.SOCK_DGRAM)
        self._link.bind(("127.0.0.1", port))
        self.port = self._link.getsockname()[1]
        self.kdc = "udp/127.0.0.1:%d" % self.port
        threading.Thread(target=self._serve, daemon=True).start()

    def _serve(self):
        while True:
            try:
                octets, sender = self._link.recvfrom(65535)
            except OSError:
                return
            answers = self._answer(self.count, octets)
            self.count += 1
            for each in answers:
                self._link.sendto(each, sender)

    def stop(self):
        self._link.close()


def name_in(query):
    """The name in the question of a query (RFC 1035, 4.1.2), and where it ends."""
    labels, at = [], 12
    while query[at]:
        labels.append(query[at + 1 : at + 1 + query[at]])
        at += 1 + query[at]
    return b".".join(labels).decode("ascii", "backslashreplace"), at + 1


class NameServer(Datagrams):
    """Knows no name, and keeps what it was asked for."""

    def __init__(self):
        self._asked, self._lock = [], threading.Lock()
        super().__init__(self._none)

    def _none(self, _, query):
        try:
            name, end = name_in(query)
        except IndexError:
            name, end = "no query: %r" % query, len(query)
        with self._lock:
            self._asked.append(name)
        # a response of a recursive server, with the code 3 (RFC 1035, 4.1.1)
        return [query[:2] + b"\x81\x83\0\1" + bytes(6) + query[12 : end + 4]]

    def take(self):
        """The names that were asked for since the last time."""
        with self._lock:
            asked, self._asked = self._asked, []
            return asked


def both(to, answer):
    """A relay, and a UDP server at the same port."""
    for _ in range(50):
        relay = Relay(to)
        try:
            return relay, Datagrams(answer, relay.port)
        except OSError:  # the port is another's over UDP
            relay.stop()
    raise OSError("no port is free over TCP and UDP")
