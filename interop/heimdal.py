"""Heimdal's programs, unpacked into a folder, since Debian keeps its packages apart from those of MIT."""

import glob
import os

from checks import say
from script import unpacked

# Its clients, its KDC and its headers, with the libraries that they need.
LIBRARIES = (
    "libasn1-8-heimdal libgssapi3-heimdal libhcrypto5-heimdal libheimbase1-heimdal libheimntlm0-heimdal libhx509-5-heimdal libkrb5-26-heimdal "
    "libroken19-heimdal libwind0-heimdal"
).split()
CLIENTS = "heimdal-clients libhdb9-heimdal libkadm5clnt7-heimdal libkadm5srv8-heimdal libkafs0-heimdal libotp0-heimdal libsl0-heimdal".split() + LIBRARIES
KDC = ["heimdal-kdc", "libkdc2-heimdal", *CLIENTS]
HEADERS = ["heimdal-multidev", *LIBRARIES]


class Programs:
    """The programs below a folder."""

    def __init__(self, root):
        self.root = root

    @property
    def libraries(self):
        """The folders of their libraries, for LD_LIBRARY_PATH."""
        found = glob.glob(os.path.join(self.root, "usr", "lib", "*", "**", "lib*.so.*"), recursive=True)
        return ":".join(sorted({os.path.dirname(each) for each in found}))

    def path(self, name):
        (found,) = [each for place in ("bin", "sbin", "lib/heimdal-servers") for each in glob.glob(os.path.join(self.root, "usr", place, name))][:1]
        return found


def programs(root, packages=CLIENTS):
    """The programs of packages; None, and a line that says so, where these cannot be had."""
    try:
        if unpacked(packages, root):
            return Programs(root)
    except OSError:
        pass
    say("left out: Heimdal, whose packages cannot be had")
    return None
