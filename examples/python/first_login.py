#!/usr/bin/env python3
"""Logs in, gets a ticket for a web server, and keeps both where MIT Kerberos finds them.

usage: first_login.py carol@HOME.TEST HTTP/www.home.test@HOME.TEST FILE"""

import getpass
import sys


def main(words):
    if words == ["--help"]:
        print(__doc__)
        return 0
    if len(words) != 3 or words[0].startswith("-"):
        print(__doc__, file=sys.stderr)
        return 2
    import krb  # here, since the usage is told without the library, too

    client, service, path = words
    try:
        credentials = krb.kinit(client, getpass.getpass("Password for %s: " % client))
        ticket = credentials.ticket_for(service)
        credentials.save(path, ticket)
        print("%s until %s" % (ticket.server, ticket.end_time))
    except (ValueError, OSError) as error:
        print("first_login: %s" % error, file=sys.stderr)
        return 1
    return 0


if __name__ == "__main__":
    sys.exit(main(sys.argv[1:]))
