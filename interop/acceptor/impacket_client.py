"""A token of Impacket for a server, of which there is a ticket in a cache: impacket_client.py CACHE SERVER. (Impacket cannot read an AS-REP of MIT's KDC.)"""

import os
import sys

from impacket.krb5 import kerberosv5
from impacket.krb5.ccache import CCache
from impacket.spnego import SPNEGO_NegTokenInit

cache, server = sys.argv[1:]
realm = os.environ["REALM"]
credential = CCache.loadFile(cache).getCredential("%s@%s" % (server, realm), False)
ticket = credential.toTGS()
made = kerberosv5.getKerberosType1("ann", "", realm, "", "", TGS=ticket, targetName=server)
print("token", bytes(SPNEGO_NegTokenInit(made[2])["MechToken"]).hex())
print("key", ticket["sessionKey"].contents.hex())
print("server", server)
