"""Prints the directory for packages of Python below PREFIX. usage: pythondir.py PREFIX

Debian's Python has schemes of its own: it looks for packages in dist-packages of /usr and of /usr/local.
"""

import sys
import sysconfig


def directory(prefix: str) -> str:
    """Where Python looks, or would look if it were installed below the prefix."""
    scheme, base = "posix_prefix", prefix
    if prefix == "/usr":
        scheme = "deb_system"
    elif prefix == "/usr/local":
        scheme, base = "posix_local", "/usr"
    if scheme not in sysconfig.get_scheme_names():
        scheme, base = "posix_prefix", prefix
    return sysconfig.get_path("purelib", scheme, vars={"base": base})


print(directory(sys.argv[1]))
