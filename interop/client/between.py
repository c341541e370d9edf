"""A relay that changes replies: `krb.client` behind it, and MIT's kinit and kvno."""

import collections
import os
import random
import shutil
import time

import krb
from changes import EACH, KINDS, Keys, Reply, without_fast
from checks import expect, say
from realm import REALM, SUITES
from refusals import rule_of
from servers import Relay

FIRST, FURTHER = "AS-REP", "TGS-REP"


class Changing:
    """Changes each final reply by the kind that is set; `made` is what came of the last one."""

    def __init__(self, keys, seed):
        self.keys, self.chance, self.kind, self.made, self.failed = keys, random.Random(seed), None, None, None

    def __call__(self, request, reply):
        try:
            self.made = self.kind(self.chance, Reply(request, reply, self.keys))
            return self.made.octets
        except Exception as error:  # a change that cannot be made fails the check, and not the relay's thread
            self.failed = error
            return reply


    def each(self, counts, numbers):
        """Sets each kind in turn, so many times: the message, the kind, its count, and one of the numbers."""
        for (message, kind), count in counts.items():
            self.kind = dict(KINDS)[kind]
            for n in range(EACH):
                self.made = self.failed = None
                yield message, kind, count, numbers[n % len(numbers)]


def judged(title, changing, rule):
    """Whether what came of a changed reply is what has to."""
    made = changing.made
    if changing.failed is not None or made is None:
        return expect(False, "%s: no change was made: %r" % (title, changing.failed))
    right = (rule is None) == made.wanted and (rule is None or rule in made.rules)
    wanted = "granted" if made.wanted else sorted(made.rules)
    return expect(right, "%s: %s: %s, and not %s: %s" % (title, made.what, rule or "granted", wanted, made.octets.hex()))


def try_between(realm, seed):
    relay = Relay(realm.port)
    relay.change = changing = Changing(Keys(realm.users, realm.granting), seed)
    counts = collections.OrderedDict(((message, kind), collections.Counter()) for message in (FIRST, FURTHER) for kind, _ in KINDS)
    begun = time.monotonic()

    def kinit(number):
        return krb.kinit("u%d@%s" % (number, REALM), keytab=realm.users, kdc=relay.kdc, etypes=[number], lifetime=3600)

    held = {number: krb.kinit("u%d@%s" % (number, REALM), keytab=realm.users, kdc=realm.kdc, etypes=[number], lifetime=7200) for number in SUITES}
    by_relay = {number: krb.Credentials(each.entry, krb.client.Settings(kdc=relay.kdc, etypes=[number])) for number, each in held.items()}
    numbers = list(SUITES)
    calls = {FIRST: kinit, FURTHER: lambda number: by_relay[number].ticket_for("HTTP/localhost", lifetime=3600)}
    # The ground: what is opened and sealed again without a change is taken.
    changing.kind = lambda chance, reply: reply.resealed()
    for number in numbers:
        for message, call in calls.items():
            changing.made = None
            judged("%s, %s, sealed again" % (message, SUITES[number]), changing, rule_of(lambda: call(number)))
    for message, kind, count, number in changing.each(counts, numbers):
        rule = rule_of(lambda: calls[message](number))
        judged("%s, %s" % (message, kind), changing, rule)
        count["all"] += 1
        if changing.made is not None:
            count["may"] += changing.made.wanted
        count["ours"] += rule is None
    seconds = time.monotonic() - begun
    try_mit(realm, relay, changing, counts, held, seed)
    relay.stop()
    print_table(counts, seed, seconds)


def try_mit(realm, relay, changing, counts, held, seed):
    """MIT's kinit and kvno behind the same relay. Nothing is expected of them, but that they take what is not changed."""
    environment = dict(realm.environment, KRB5_CONFIG=realm.client_config(relay.port))
    changing.chance, numbers = random.Random(seed), list(held)
    caches = {number: realm.path("granting-%d" % number) for number in numbers}
    for number in numbers:
        held[number].save(caches[number])
    relay.request = without_fast  # the relay does not open what FAST protects; MIT's kvno goes on without it
    path = realm.path("changed")

    def run(message, number):
        if message == FIRST:
            return realm.status("kinit", "-k", "-t", realm.users, "-l", "1h", "-c", path, "u%d" % number, environment=environment)[0] == 0
        shutil.copyfile(caches[number], path)
        os.chmod(path, 0o600)
        return realm.status("kvno", "-c", path, "HTTP/localhost", environment=environment)[0] == 0

    changing.kind = lambda chance, reply: reply.resealed()
    for number in numbers:
        expect(run(FIRST, number) and run(FURTHER, number), "MIT, %s: what is sealed again without a change" % SUITES[number])
    for message, kind, count, number in changing.each(counts, numbers):
        taken = run(message, number)
        expect(changing.made is not None and changing.failed is None, "MIT, %s, %s: no change was made: %r" % (message, kind, changing.failed))
        count["mit"] += taken
        count["mit past a rule"] += taken and changing.made is not None and not changing.made.wanted


def print_table(counts, seed, seconds):
    say("changed replies, seed %d, ours in %.1f seconds: how many there are, break no rule, krb.client takes, MIT takes, MIT takes past a rule" % (seed, seconds))
    for message in (FIRST, FURTHER):
        whole = collections.Counter()
        for (of, kind), count in counts.items():
            if of == message:
                whole.update(count)
                say("  %-8s %-30s %5d %5d %5d %5d %5d" % ((message, kind) + tuple(count[each] for each in ("all", "may", "ours", "mit", "mit past a rule"))))
        say("  %-8s %-30s %5d %5d %5d %5d %5d" % ((message, "all") + tuple(whole[each] for each in ("all", "may", "ours", "mit", "mit past a rule"))))
