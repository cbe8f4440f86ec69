# SPDX-License-Identifier: MIT
"""What pip calls to make the package (PEP 517, PEP 660), by the standard library alone, so that
`pip install ./python` in a checkout downloads nothing, and needs neither setuptools nor wheel.

The package has the shared library beside its modules: that of the environment variable
RRCACHE_LIBRARY, else what bin/build-c made. So it is for one platform, and there for each Python 3,
since ctypes loads it.
"""
import base64
import hashlib
import os
import re
import sys
import sysconfig
import zipfile
from pathlib import Path

HERE = Path(__file__).resolve().parent
MODULES, BUILT = HERE / "rrcache", HERE.parent / "build" / "librrcache.so"
VERSION = re.search(r'^__version__ = "(.*)"$', (MODULES / "__init__.py").read_text(), re.M)[1]
TAG = f"py3-none-{re.sub('[-.]', '_', sysconfig.get_platform())}"
METADATA = f"""\
Metadata-Version: 2.1
Name: rrcache
Version: {VERSION}
Summary: An RRset cache for recursive DNS resolvers, built on the C library
License: MIT
Classifier: Topic :: Internet :: Name Service (DNS)
Classifier: Typing :: Typed
Requires-Python: >=3.10
Description-Content-Type: text/markdown

{(HERE / "README.md").read_text()}"""
WHEEL = f"""\
Wheel-Version: 1.0
Generator: rrcache
Root-Is-Purelib: false
Tag: {TAG}
"""


def row_of(name, octets):
    """What the record of a wheel says of a file."""
    digest = base64.urlsafe_b64encode(hashlib.sha256(octets).digest()).rstrip(b"=").decode()
    return f"{name},sha256={digest},{len(octets)}\n"


def put_wheel(folder, files):
    """Writes a wheel of these octets by name and of what is said of them, and tells its name."""
    info, name = f"rrcache-{VERSION}.dist-info", f"rrcache-{VERSION}-{TAG}.whl"
    files |= {f"{info}/METADATA": METADATA.encode(), f"{info}/WHEEL": WHEEL.encode(),
              f"{info}/LICENSE": (HERE.parent / "LICENSE").read_bytes()}
    rows = "".join(row_of(*it) for it in files.items()) + f"{info}/RECORD,,\n"
    with zipfile.ZipFile(Path(folder) / name, "w", zipfile.ZIP_DEFLATED) as wheel:
        for path, octets in (files | {f"{info}/RECORD": rows.encode()}).items():
            member = zipfile.ZipInfo(path)
            member.external_attr, member.compress_type = 0o100644 << 16, zipfile.ZIP_DEFLATED
            wheel.writestr(member, octets)
    return name


def build_wheel(wheel_directory, config_settings=None, metadata_directory=None):
    """The modules and the library."""
    library = Path(os.environ.get("RRCACHE_LIBRARY") or BUILT)
    if not library.is_file():
        sys.exit(f"there is no {library}: bin/build-c builds the library, so run that first")
    modules = [*sorted(MODULES.glob("*.py")), MODULES / "py.typed"]
    files = {f"rrcache/{it.name}": it.read_bytes() for it in modules}
    return put_wheel(wheel_directory, files | {"rrcache/librrcache.so": library.read_bytes()})


def build_editable(wheel_directory, config_settings=None, metadata_directory=None):
    """Where the modules are, which find the library as they do in the repository."""
    return put_wheel(wheel_directory, {"rrcache.pth": f"{HERE}\n".encode()})


def build_sdist(sdist_directory, config_settings=None):
    """Sources without the library would make no package."""
    sys.exit("the package is made in a checkout of the repository alone, as a wheel")
