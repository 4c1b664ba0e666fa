"""A Debian package of the installed program, made by dpkg-deb of what `install` puts below a folder: what a packager would do, to see that it can be done."""

import gzip
import os
import subprocess
import sys

import form
from freshness import TOP

NAME = "aom"
CONTROL = """\
Package: {name}
Version: {version}-1
Section: devel
Priority: optional
Architecture: amd64
Depends: libc6, python3:any
Maintainer: Lumetriko maintainers <maintainers@users.noreply.lumetriko.example>
Description: verifier, machine and debugger for programs of active objects
 aom refuses a program, and says why, unless it can show that no run loses
 an object, uses one that is gone, or takes more steps than the program
 declares. It runs, explores and debugs what it accepts.
"""
COPYRIGHT = """\
Format: https://www.debian.org/doc/packaging-manuals/copyright-format/1.0/
Upstream-Name: aom

Files: *
Copyright: 2026 Lumetriko
License: Expat or Apache-2.0
 The Expat license:
{mit}
 .
 The Apache License, Version 2.0, stands in /usr/share/common-licenses/Apache-2.0.
 .
 The program links ports of other crates; NOTICE beside this file names them.
"""
CHANGES = """\
{name} ({version}-1) unstable; urgency=medium

  * {version}: see CHANGELOG.md.

 -- Lumetriko maintainers <maintainers@users.noreply.lumetriko.example>  {date}
"""


def write(file, text):
    os.makedirs(os.path.dirname(file), exist_ok=True)
    with open(file, "w", encoding="utf-8") as it:
        it.write(text)


def zipped(file):
    """Packs a file of a package as its policy asks: without a name and a time."""
    with open(file, "rb") as it:
        text = it.read()
    os.unlink(file)
    with open(f"{file}.gz", "wb") as it:
        it.write(gzip.compress(text, 9, mtime=0))


def indented(text):
    return "\n".join(f" {line}" if line else " ." for line in text.splitlines())


def documents(root):
    """The files that each package has: copyright and changes, and the licenses that stand elsewhere taken out."""
    folder, version = f"{root}/usr/share/doc/{NAME}", form.version()
    with open(f"{TOP}/LICENSE-MIT", encoding="utf-8") as it:
        write(f"{folder}/copyright", COPYRIGHT.format(mit=indented(it.read())))
    date = subprocess.run(["date", "-R", "-d", form.version_date()], stdout=subprocess.PIPE, text=True, check=True).stdout.strip()
    write(f"{folder}/changelog.Debian", CHANGES.format(name=NAME, version=version, date=date))
    for name in ("LICENSE", "LICENSE-MIT", "LICENSE-APACHE"):
        os.unlink(f"{folder}/{name}")
    os.rename(f"{folder}/CHANGELOG.md", f"{folder}/changelog")
    for name in ("changelog.Debian", "changelog"):
        zipped(f"{folder}/{name}")


def package(program, place):
    """The file of a package of a program, made in a folder."""
    root = f"{place}/root"
    words = [sys.executable, f"{TOP}/tools/install", program, "--strip", "/usr"]
    subprocess.run(words, env={**os.environ, "DESTDIR": root}, stdout=subprocess.DEVNULL, check=True)
    os.unlink(f"{root}/usr/share/aom/manifest")
    zipped(f"{root}/usr/share/man/man1/aom.1")
    documents(root)
    write(f"{root}/DEBIAN/control", CONTROL.format(name=NAME, version=form.version()))
    made = f"{place}/{NAME}_{form.version()}-1_amd64.deb"
    subprocess.run(["dpkg-deb", "--root-owner-group", "--build", root, made], stdout=subprocess.DEVNULL, check=True)
    return made


def errors_of(made):
    """What lintian finds wrong with a package."""
    said = subprocess.run(["lintian", "--fail-on", "none", "--allow-root", made], stdout=subprocess.PIPE, stderr=subprocess.STDOUT, text=True).stdout
    return [it for it in said.splitlines() if it.startswith("E:")]
