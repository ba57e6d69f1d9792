"""Builds the package for pip, with nothing beside Python: the modules of uplink/, and the assembly of the proved library from dist/ of the
repository that this folder stands in, after tools/fresh has compared it with the proved crates."""
import base64
import hashlib
import os
import re
import subprocess
import sys
import zipfile

HERE = os.path.dirname(os.path.abspath(__file__))
REPOSITORY = os.path.dirname(os.path.dirname(HERE))
DIST = ("PROOF", "uplink-aarch64.s", "uplink-x86_64.s")

METADATA = """Metadata-Version: 2.1
Name: uplink
Version: %s
Summary: Formulas of dives: read, derived, integrated, undone and run by proved code
License: MIT
Requires-Python: >=3.8
"""
WHEEL = """Wheel-Version: 1.0
Generator: uplink build_wheel
Root-Is-Purelib: true
Tag: py3-none-any
"""


def content_of(*parts):
    with open(os.path.join(*parts), "rb") as file:
        return file.read()


def version():
    return re.search(r'__version__ = "(.*)"', content_of(HERE, "uplink", "__init__.py").decode()).group(1)


def ask_fresh():
    if not os.path.isfile(os.path.join(REPOSITORY, "tools", "fresh")):
        sys.exit("uplink: this package is built in bindings/python of a whole copy of the repository, by pip 21.3 or later: there is no tools/fresh in " + REPOSITORY)
    done = subprocess.run(["sh", os.path.join(REPOSITORY, "tools", "fresh")], stdout=subprocess.PIPE, stderr=subprocess.STDOUT, errors="replace")
    if done.returncode != 0:
        sys.exit("%suplink: dist/ is not what the crates at hand were compiled to, so no package is made of it" % done.stdout)


def files():
    """What goes into the package, by name."""
    names = sorted(name for name in os.listdir(os.path.join(HERE, "uplink")) if name.endswith((".py", ".typed")))
    found = {"uplink/" + name: content_of(HERE, "uplink", name) for name in names}
    found.update({"uplink/dist/" + name: content_of(REPOSITORY, "dist", name) for name in DIST})
    about = "uplink-%s.dist-info/" % version()
    found[about + "METADATA"] = (METADATA % version()).encode()
    found[about + "WHEEL"] = WHEEL.encode()
    found[about + "LICENSE"] = content_of(REPOSITORY, "LICENSE")
    return found, about + "RECORD"


def recorded(found, record):
    """The list of what is in a package, as packages have it."""
    lines = []
    for name, content in found.items():
        digest = base64.urlsafe_b64encode(hashlib.sha256(content).digest()).rstrip(b"=").decode()
        lines.append("%s,sha256=%s,%d\n" % (name, digest, len(content)))
    return "".join(lines) + record + ",,\n"


def build_wheel(wheel_directory, config_settings=None, metadata_directory=None):
    ask_fresh()
    found, record = files()
    found[record] = recorded(found, record).encode()
    name = "uplink-%s-py3-none-any.whl" % version()
    with zipfile.ZipFile(os.path.join(wheel_directory, name), "w", zipfile.ZIP_DEFLATED) as wheel:
        for path, content in found.items():
            wheel.writestr(zipfile.ZipInfo(path, (1980, 1, 1, 0, 0, 0)), content, zipfile.ZIP_DEFLATED)
    return name


def build_sdist(sdist_directory, config_settings=None):
    sys.exit("uplink: the package is built in a whole copy of the repository, and has no source archive of its own")
