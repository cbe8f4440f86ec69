# SPDX-License-Identifier: MIT
"""Servers, a resolver and their configurations in a network namespace, whose loopback has all
addresses: what the scripts that make captures have in common."""
import os
import subprocess
import sys
import time
from contextlib import contextmanager, suppress


def in_namespace(script, words):
    """Goes on in a network namespace of its own, which needs root."""
    if os.environ.get("IN_NAMESPACE") != "yes":
        os.environ["IN_NAMESPACE"] = "yes"
        os.execvp("unshare", ["unshare", "--net", sys.executable, script, *words])


def add_addresses(addresses):
    """Gives the loopback interface these addresses, and a usual packet size."""
    subprocess.run("ip link set lo up mtu 1500".split(), check=True)
    for it in addresses:
        size = "128 dev lo nodad" if ":" in it else "32 dev lo"
        subprocess.run(f"ip address add {it}/{size}".split(), check=True)


def written(path, clauses):
    """Writes a configuration of these clauses, each with its options, and returns its path."""
    path.write_text("".join("\n  ".join([f"{name}:", *options]) + "\n"
                            for name, *options in clauses))
    return path


def nsd_conf(folder, number, addresses, zones):
    """Writes what one name server reads, and returns its path."""
    place = folder / f"nsd{number}"
    place.mkdir()
    clauses = [
        ("server", *(f"ip-address: {it}" for it in addresses), "port: 53", "server-count: 1",
         'username: ""', 'chroot: ""', f'zonesdir: "{place}"', f'pidfile: "{place}/pid"',
         f'xfrdfile: "{place}/xfrd"', 'database: ""', f'zonelistfile: "{place}/list"',
         "ipv4-edns-size: 4096", "ipv6-edns-size: 4096", "rrl-ratelimit: 0"),
        ("remote-control", "control-enable: no")]
    for name, text in zones:
        (place / f"{name}zone").write_text(text)
        clauses.append(("zone", f'name: "{name}"', f'zonefile: "{name}zone"'))
    return written(place / "conf", clauses)


def hints(folder, root):
    """Writes which root server a resolver asks first, and returns its path."""
    path = folder / "hints"
    path.write_text(f". 3600 NS a.root.\na.root. 3600 A {root}\n")
    return path


def unbound_conf(folder, addresses, root, options, more=()):
    """Writes what the resolver reads, which asks this root server first, and returns its path."""
    return written(folder / "unbound.conf", [
        ("server", *(f"interface: {it}" for it in addresses),
         *(f"outgoing-interface: {it}" for it in addresses),
         "access-control: 0.0.0.0/0 allow", "access-control: ::/0 allow", 'username: ""',
         'chroot: ""', f'directory: "{folder}"', f'pidfile: "{folder}/unbound.pid"',
         f'root-hints: "{hints(folder, root)}"', 'module-config: "iterator"', "num-threads: 1",
         "use-syslog: no", f'logfile: "{folder}/unbound.log"', *options),
        *more, ("remote-control", "control-enable: no")])


@contextmanager
def running(commands):
    """Runs these commands, each begun a second behind the one before, until all is done."""
    started = []
    try:
        for words in commands:
            started.append(subprocess.Popen(words))
            time.sleep(1)
        yield started
    finally:
        for it in reversed(started):
            with suppress(ProcessLookupError):
                it.terminate()
            it.wait()
