# SPDX-License-Identifier: MIT
"""The Rust crate of a release, over the library of its archive."""
import os
import subprocess

import dns.message
import dns.query

from tests.install.places import said
from tests.rust.test_rust import pytestmark  # noqa: F401


def test_example(crate, unpacked):
    """The example answers a query for the name that its cache has."""
    around = {**os.environ, "PKG_CONFIG_PATH": f"{unpacked}/lib/pkgconfig",
              "LD_LIBRARY_PATH": f"{unpacked}/lib"}
    with subprocess.Popen(["cargo", "run", "--offline", "--quiet", "--example", "answer",
                           "127.0.0.1:0"], cwd=crate, env=around, stdout=subprocess.PIPE,
                          text=True) as answering:
        try:
            port = int(answering.stdout.readline().rpartition(":")[2])
            asked = dns.message.make_query("www.example.", "A", use_edns=False)
            answer = dns.query.udp(asked, "127.0.0.1", timeout=5, port=port).answer
        finally:
            answering.terminate()
    assert [it.to_text() for rrset in answer for it in rrset] == ["192.0.2.1"]


def test_folder_with_a_space(crate, unpacked, tmp_path):
    """pkg-config writes such a folder with a backslash."""
    folder = tmp_path / "a folder"
    said("cp", "-a", unpacked, folder)
    around = {**os.environ, "PKG_CONFIG_PATH": f"{folder}/lib/pkgconfig",
              "CARGO_TARGET_DIR": str(tmp_path / "target")}
    ran = subprocess.run(["cargo", "run", "--offline", "--quiet", "--example", "first"], cwd=crate,
                         env=around, capture_output=True, text=True)
    assert (ran.returncode, ran.stderr) == (0, "")
