#!/usr/bin/env python3
"""Packs what was built into a release: a .tar.gz, a wheel for Python and, if dpkg-deb is installed, two .deb. Another .deb
has the extension of postgres/, if the headers of PostgreSQL's server are installed.

usage: tools/dist.py [--program FILE] [--libraries FOLDER] [INTO]
       tools/dist.py --may

The script proves nothing, and builds only the extension: `make dist` does everything else first. FILE is the program,
FOLDER has the libraries, and INTO gets the packages (default: dist/). The packages contain what `make install` copies,
without the symbols that only a debugger reads. They also have the checksums of all files, and PROVED.txt: the commit, the
toolchain, and the last lines of `make test`. The wheel has the package of python/boruvka, the shared library and the page;
it needs no compiler. One .deb has the program and the libraries, and the other has the package for Debian's own Python.

Nothing is packed if no `make test` is known to have passed on this commit, or if CHANGELOG.md doesn't begin with this
version. With UNPROVED=1 in the environment it is packed anyway, and PROVED.txt says so. `--may` only reports whether it may
be packed.

The same files give the same bytes: names are sorted, owners are root, and each time is SOURCE_DATE_EPOCH or, if that isn't
set, the time of the commit. The script prints the checksum of each package.
"""
import base64
import gzip
import hashlib
import io
import os
import re
import shutil
import stat
import subprocess
import sys
import tarfile
import tempfile
import time
import zipfile

sys.dont_write_bytecode = True

import record
from crates import ROOT
from documents import Places
from stamp import VERSION, git, seconds, text_of, version

PROGRAM = f"{ROOT}/crates/boruvka/out/boruvka"
LIBRARIES = f"{ROOT}/crates/boruvka_c/out"
# Variables that tell `make install` where to put things. A package ignores them.
FOLDERS = ("BINDIR", "LIBDIR", "INCLUDEDIR", "MANDIR", "DOCDIR", "PAGEDIR", "BASHDIR", "ZSHDIR", "FISHDIR")
# The Debian package of each shared library.
PACKAGES = {"libc.so.6": "libc6", "libm.so.6": "libc6", "libpthread.so.0": "libc6", "libdl.so.2": "libc6", "ld-linux-x86-64.so.2": "libc6", "libgcc_s.so.1": "libgcc-s1"}
CONTROL = """\
Package: boruvka
Version: {version}
Architecture: amd64
Maintainer: {maintainer}
Installed-Size: {size}
Depends: {depends}
Section: math
Priority: optional
Description: minimum spanning forests of weighted graphs
 The program boruvka reads a weighted graph in the .gr format and writes its
 minimum spanning forest. A shared and a static library compute the forest of
 links that lie in the memory of a program in C, Rust or Python. A page draws
 forests in a browser.
"""
CONTROL_OF_PYTHON = """\
Package: python3-boruvka
Version: {version}
Architecture: all
Maintainer: {maintainer}
Installed-Size: {size}
Depends: boruvka (>= {version}), python3 (>= 3.9), python3-numpy (>= 1:1.21)
Suggests: python3-dask, python3-matplotlib, python3-networkx, python3-pandas, python3-scipy, python3-sklearn
Section: python
Priority: optional
Description: minimum spanning forests of numpy arrays
 The module boruvka finds minimum spanning forests of edges in arrays, in frames
 of pandas and in chunks, and clusters points by single linkage and by HDBSCAN.
 It calls the shared library of the package boruvka.
"""
OF_PYTHON = """\
#!/bin/sh
set -e
if command -v {command} > /dev/null 2>&1; then
    {command} -p python3-boruvka
fi
"""
# (a host that can't exist, because no address is known)
MAINTAINER = "the authors of Borůvka <no-address@boruvka.invalid>"
COPYRIGHT = """\
Format: https://www.debian.org/doc/packaging-manuals/copyright-format/1.0/
Upstream-Name: boruvka

Files: *
Copyright: 2026 the authors of Borůvka
License: MIT or Apache-2.0

License: MIT
 Permission is hereby granted, free of charge, to any person obtaining a copy
 of this software and associated documentation files (the "Software"), to deal
 in the Software without restriction, including without limitation the rights
 to use, copy, modify, merge, publish, distribute, sublicense, and/or sell
 copies of the Software, and to permit persons to whom the Software is
 furnished to do so, subject to the following conditions:
 .
 The above copyright notice and this permission notice shall be included in all
 copies or substantial portions of the Software.
 .
 THE SOFTWARE IS PROVIDED "AS IS", WITHOUT WARRANTY OF ANY KIND, EXPRESS OR
 IMPLIED, INCLUDING BUT NOT LIMITED TO THE WARRANTIES OF MERCHANTABILITY,
 FITNESS FOR A PARTICULAR PURPOSE AND NONINFRINGEMENT. IN NO EVENT SHALL THE
 AUTHORS OR COPYRIGHT HOLDERS BE LIABLE FOR ANY CLAIM, DAMAGES OR OTHER
 LIABILITY, WHETHER IN AN ACTION OF CONTRACT, TORT OR OTHERWISE, ARISING FROM,
 OUT OF OR IN CONNECTION WITH THE SOFTWARE OR THE USE OR OTHER DEALINGS IN THE
 SOFTWARE.

License: Apache-2.0
 On Debian systems /usr/share/common-licenses/Apache-2.0 has the text.
"""
CHANGELOG = """\
{package} ({version}) unstable; urgency=medium

  * CHANGELOG.md has the changes of this version.

 -- {maintainer}  {date}
"""
OVERRIDES = """\
# One small package has program, libraries and headers, all of one version.
boruvka: package-name-doesnt-match-sonames libboruvka{major}
boruvka: link-to-shared-library-in-wrong-package *
"""
FOR_POSTGRES = """\
Package: postgresql-{server}-boruvka
Version: {version}
Architecture: amd64
Maintainer: {maintainer}
Installed-Size: {size}
Depends: {depends}, postgresql-{server}
Section: database
Priority: optional
Description: minimum spanning forests in PostgreSQL
 The extension boruvka finds minimum spanning forests of edges in tables, by an
 aggregate and by functions with the columns of pgRouting. It also finds their
 components, clusters and trees.
"""
# What every Linux that matches the wheel's tag has: the policy manylinux2014 (PEP 599).
TAG = "py3-none-manylinux2014_x86_64"
MOST_GLIBC = (2, 17)
TIMES = (315_532_800, 4_323_283_200)  # from 1980 until 2107: a .zip can't have other times
OF_MANYLINUX = {"libc.so.6", "libm.so.6", "libpthread.so.0", "libdl.so.2", "libgcc_s.so.1", "ld-linux-x86-64.so.2"}
METADATA = """\
Metadata-Version: 2.1
Name: boruvka
Version: {version}
Summary: Minimum spanning forests of numpy arrays, by a library whose calls are proved
Author: the authors of Borůvka
License: MIT OR Apache-2.0
Classifier: License :: OSI Approved :: Apache Software License
Classifier: License :: OSI Approved :: MIT License
Classifier: Operating System :: POSIX :: Linux
Classifier: Programming Language :: Python :: 3
Classifier: Programming Language :: Python :: 3.9
Classifier: Programming Language :: Python :: 3.10
Classifier: Programming Language :: Python :: 3.11
Classifier: Programming Language :: Python :: 3.12
Classifier: Programming Language :: Python :: 3.13
Classifier: Topic :: Scientific/Engineering :: Mathematics
Classifier: Typing :: Typed
License-File: LICENSE
Requires-Python: >=3.9
Requires-Dist: numpy>=1.21
{extras}Description-Content-Type: text/markdown

{readme}"""
# The packages that this one works with, and their oldest versions. Each is an extra of the wheel.
EXTRAS = {"dask": "2022.2", "matplotlib": "3.5", "networkx": "3.2", "pandas": "1.3", "scikit-learn": "1.0", "scipy": "1.8"}
WHEEL = f"Wheel-Version: 1.0\nGenerator: tools/dist.py\nRoot-Is-Purelib: false\nTag: {TAG}\n"
ENTRY_POINTS = """\
[networkx.backends]
boruvka = boruvka.networkx_backend

[networkx.backend_info]
boruvka = _boruvka_networkx:info
"""


class NotPacked(Exception):
    pass


def refusal():
    """Returns why a release may not be packed, or None."""
    if os.environ.get("UNPROVED") == "1":
        return None
    latest = re.search(r"^## (\S+)", text_of("CHANGELOG.md"), re.M)[1]
    if latest != version():
        return f"CHANGELOG.md begins with {latest}, but {VERSION} has {version()}: make them equal, or set UNPROVED=1"
    if not record.kept():
        return "`make test` isn't known to have passed on this commit: run it, or set UNPROVED=1"
    return None


def strip(program):
    """Removes the symbols that only a debugger reads. The shared library is built without them."""
    ended = subprocess.run(["strip", "--strip-unneeded", program], capture_output=True, text=True, check=False)
    if ended.returncode:
        raise NotPacked(ended.stderr.strip())


class Release:
    """What goes into each package, and the time of all its files."""

    def __init__(self, program, libraries):
        self.program, self.libraries = program, libraries
        try:
            self.version, self.seconds = version(), seconds()
        except ValueError:
            raise NotPacked("SOURCE_DATE_EPOCH isn't a whole number of seconds") from None
        if self.seconds is None:
            raise NotPacked("the time of the commit isn't known: set SOURCE_DATE_EPOCH")
        if not TIMES[0] <= self.seconds < TIMES[1]:
            raise NotPacked(f"SOURCE_DATE_EPOCH is {self.seconds}, but the times in a wheel are from 1980 to 2106")

    def install(self, root, prefix, **folders):
        """Installs below a root, as `make install` does. Everything has to have been built."""
        env = {it: word for it, word in os.environ.items() if it not in ("MAKEFLAGS", "MAKELEVEL", "MFLAGS", *FOLDERS)}
        # (relative paths, as in the Makefile: a target can't have a space, but the path of a checkout may)
        program, library = os.path.relpath(self.program, ROOT), os.path.relpath(f"{self.libraries}/libboruvka", ROOT)
        words = [f"PROGRAM={program}", f"LIBRARY={library}", f"DESTDIR={root}", f"PREFIX={prefix}"]
        words += [f"{name}={folder}" for name, folder in folders.items()]
        ended = subprocess.run(["make", "-s", "-C", ROOT, *words, "install"], env=env, capture_output=True, text=True, check=False)
        if ended.returncode or ended.stderr:
            raise NotPacked(ended.stderr.strip())
        strip(f"{root}{prefix}/bin/boruvka")

    def proved(self):
        """Yields the lines of PROVED.txt."""
        head, gate = git("rev-parse", "HEAD"), record.kept()
        changed = ", with uncommitted changes" if head and not record.commit() else ""
        yield f"boruvka {self.version}"
        yield f"commit: {head or 'not known'}{changed}"
        yield f"toolchain: {record.kit() or 'not known'}"
        if gate:
            yield f"make test: passed on this commit, with {gate['kit'] or 'an unknown toolchain'}"
            yield from [f"    {it}" for it in gate["lines"]]
        else:
            yield "make test: not known to have passed on this commit; packed anyway, because UNPROVED=1 was set"

    def settle(self, root):
        """Gives everything below a folder the modes and the time that it has in a package."""
        for at, folders, files in os.walk(root, topdown=False):
            for name in [*files, *folders]:
                os.utime(f"{at}/{name}", (self.seconds, self.seconds), follow_symlinks=False)
            os.chmod(at, 0o755)
            os.utime(at, (self.seconds, self.seconds))


def put(path, content):
    os.makedirs(os.path.dirname(path), exist_ok=True)
    with open(path, "wb") as it:
        it.write(content.encode() if isinstance(content, str) else content)
    os.chmod(path, 0o644)


def read(path):
    with open(path, "rb") as it:
        return it.read()


def files_below(root):
    """Returns the paths of the regular files below a folder, relative to it, sorted."""
    found = [f"{at}/{name}" for at, _, files in os.walk(root) for name in files]
    return sorted(os.path.relpath(it, root) for it in found if not os.path.islink(it))


def sums(root, kind):
    """Returns the lines that sha256sum or md5sum writes for all files below a folder."""
    return "".join(f"{hashlib.new(kind, read(f'{root}/{it}')).hexdigest()}  {it}\n" for it in files_below(root))


def gzipped(content):
    """Compresses the content by gzip, without a name and a time."""
    packed = io.BytesIO()
    with gzip.GzipFile(filename="", mode="wb", fileobj=packed, mtime=0) as out:
        out.write(content)
    return packed.getvalue()


def tarball(release, room):
    name = f"boruvka-{release.version}-x86_64-linux"
    root = f"{room}/{name}"
    release.install(root, "", DOCDIR="")
    put(f"{root}/PROVED.txt", "\n".join(release.proved()) + "\n")
    put(f"{root}/SHA256SUMS", sums(root, "sha256"))
    release.settle(root)
    packed = io.BytesIO()
    with tarfile.open(fileobj=packed, mode="w", format=tarfile.USTAR_FORMAT) as tar:
        # (tarfile adds the contents of a folder in the order of their names)
        tar.add(root, name, filter=owned_by_root)
    return f"{name}.tar.gz", gzipped(packed.getvalue())


def owned_by_root(member):
    member.uid = member.gid = 0
    member.uname = member.gname = "root"
    return member


def libraries_of(code):
    """Returns the names of the shared libraries that a binary needs."""
    return {it.decode() for it in re.findall(rb"\0((?:lib|ld-)[\w+-]+\.so\.\d+)(?=\0)", code) if not it.startswith(b"libboruvka.")}


def least_glibc(code):
    """Returns the oldest version of the C library that has everything a binary needs."""
    return max(tuple(map(int, it.split(b"."))) for it in re.findall(rb"\0GLIBC_(\d+\.\d+(?:\.\d+)?)(?=\0)", code))


def depends(files):
    """Returns the packages that these programs and libraries need, with the oldest version of the C library."""
    code = b"".join(map(read, files))
    wanted = libraries_of(code)
    if not wanted <= PACKAGES.keys():
        raise NotPacked(f"no package is known for {', '.join(sorted(wanted - PACKAGES.keys()))}")
    packages = {PACKAGES[it] for it in wanted} | {"libc6"}
    least = ".".join(map(str, least_glibc(code)))
    return ", ".join(f"libc6 (>= {least})" if it == "libc6" else it for it in sorted(packages))


def python_files(release):
    """Maps the paths of the package for Python to its files: sources, descriptions, and what networkx reads."""
    package, about = "boruvka", f"boruvka-{release.version}.dist-info"
    sources = sorted(it for it in os.listdir(f"{ROOT}/python/{package}") if it.endswith((".py", ".typed")))
    files = {f"{package}/{it}": read(f"{ROOT}/python/{package}/{it}") for it in sources}
    files["_boruvka_networkx.py"] = read(f"{ROOT}/python/_boruvka_networkx.py")
    readme = Places("", None, ["python/README.md"]).linked("python/README.md", text_of("python/README.md"))
    extras = "".join(f'Provides-Extra: {it}\nRequires-Dist: {it}>={least}; extra == "{it}"\n' for it, least in EXTRAS.items())
    files[f"{about}/METADATA"] = METADATA.format(version=release.version, extras=extras, readme=readme).encode()
    files[f"{about}/entry_points.txt"] = ENTRY_POINTS.encode()
    return files


def wheel(release, room):
    """Writes the package for Python as PEP 427 lays it out, with the shared library and the page in it."""
    library = read(f"{release.libraries}/libboruvka.so.{release.version}")
    if least_glibc(library) > MOST_GLIBC or not libraries_of(library) <= OF_MANYLINUX:
        raise NotPacked(f"the shared library needs more than {TAG} allows: {least_glibc(library)}, {sorted(libraries_of(library))}")
    package, about = "boruvka", f"boruvka-{release.version}.dist-info"
    release.install(room, "")
    files = python_files(release)
    # (Python would take boruvka.so for a module, so it has a number)
    files[f"{package}/libboruvka.so.{release.version.split('.')[0]}"] = library
    files[f"{package}/boruvka.html"] = read(f"{room}/share/boruvka/boruvka.html")
    texts = {"WHEEL": WHEEL, "LICENSE": text_of("LICENSE"), "PROVED.txt": "\n".join(release.proved()) + "\n"}
    files.update({f"{about}/{name}": text.encode() for name, text in texts.items()})
    record = [f"{path},sha256={digest(content)},{len(content)}\n" for path, content in sorted(files.items())]
    files[f"{about}/RECORD"] = "".join([*record, f"{about}/RECORD,,\n"]).encode()
    return f"{package}-{release.version}-{TAG}.whl", zipped(files, release.seconds)


def digest(content):
    """Returns a file's checksum, as a wheel records it."""
    return base64.urlsafe_b64encode(hashlib.sha256(content).digest()).decode().rstrip("=")


def zipped(files, seconds):
    """Writes a .zip with these files in their order, all with the same time."""
    packed = io.BytesIO()
    with zipfile.ZipFile(packed, "w") as out:
        for path, content in files.items():
            entry = zipfile.ZipInfo(path, time.gmtime(seconds)[:6])
            entry.create_system, entry.external_attr = 3, (stat.S_IFREG | 0o644) << 16
            out.writestr(entry, content, zipfile.ZIP_DEFLATED, 9)
    return packed.getvalue()


def debian(release, room):
    root = f"{room}/root"
    lib = "/usr/lib/x86_64-linux-gnu"
    share = f"{root}/usr/share"
    release.install(root, "/usr", LIBDIR=lib, ZSHDIR="/usr/share/zsh/vendor-completions")
    manual = f"{share}/man/man1/boruvka.1"
    put(f"{manual}.gz", gzipped(read(manual)))
    os.remove(manual)
    # a shared library isn't executable
    library = f"{root}{lib}/libboruvka.so.{release.version}"
    os.chmod(library, 0o644)
    values = put_about(root, "boruvka", release)
    put(f"{share}/lintian/overrides/boruvka", OVERRIDES.format(**values))
    control = {
        "triggers": "activate-noawait ldconfig\n",
        "shlibs": "libboruvka {major} boruvka (>= {version})\n",
        "control": CONTROL.replace("{depends}", depends([f"{root}/usr/bin/boruvka", library])),
    }
    return f"boruvka_{release.version}_amd64.deb", built_by_dpkg(release, root, control, values)


def debian_of_python(release, room):
    """Makes the package for Debian's own Python, where pip can't install. It uses the library of the other .deb."""
    root = f"{room}/root"
    for path, content in python_files(release).items():
        put(f"{root}/usr/lib/python3/dist-packages/{path}", content)
    values = put_about(root, "python3-boruvka", release)
    control = {
        "postinst": OF_PYTHON.replace("{command}", "py3compile"),
        "prerm": OF_PYTHON.replace("{command}", "py3clean"),
        "control": CONTROL_OF_PYTHON,
    }
    return f"python3-boruvka_{release.version}_all.deb", built_by_dpkg(release, root, control, values)


def put_about(root, package, release):
    """Writes the documents that Debian requires of each package, and returns what its other files say about the release."""
    date = time.strftime("%a, %d %b %Y %H:%M:%S +0000", time.gmtime(release.seconds))
    values = {"version": release.version, "major": release.version.split(".")[0], "date": date, "maintainer": MAINTAINER}
    doc = f"{root}/usr/share/doc/{package}"
    put(f"{doc}/copyright", COPYRIGHT)
    put(f"{doc}/changelog.gz", gzipped(CHANGELOG.format(package=package, **values).encode()))
    put(f"{doc}/PROVED.txt", "\n".join(release.proved()) + "\n")
    return values


def built_by_dpkg(release, root, control, values):
    """Makes the package of everything below a folder, with these files for dpkg, in which names become their values."""
    values = {**values, "size": sum(-(-os.path.getsize(f"{root}/{it}") // 1024) for it in files_below(root))}
    put(f"{root}/DEBIAN/md5sums", sums(root, "md5"))
    for name, text in control.items():
        put(f"{root}/DEBIAN/{name}", text.format(**values))
        os.chmod(f"{root}/DEBIAN/{name}", 0o755 if text.startswith("#!") else 0o644)
    release.settle(root)
    made = f"{root}.deb"
    words = ["dpkg-deb", "--root-owner-group", "--uniform-compression", "-Zgzip", "-z9", "--build", root, made]
    ended = subprocess.run(words, env={**os.environ, "SOURCE_DATE_EPOCH": str(release.seconds)}, capture_output=True, text=True, check=False)
    if ended.returncode or ended.stderr:
        raise NotPacked(ended.stderr.strip())
    return read(made)


def server():
    """Returns the folders of PostgreSQL and its version, or None if its headers aren't installed."""
    try:
        told = subprocess.run(["pg_config", "--pgxs", "--pkglibdir", "--sharedir", "--version"], capture_output=True, text=True, check=True).stdout
    except (OSError, subprocess.CalledProcessError):
        return None
    rules, *folders, name = told.splitlines()
    return (*folders, re.search(r"\d+", name)[0]) if os.path.exists(rules) else None


def extension(release, room):
    """Makes the package of the extension for PostgreSQL, which is compiled in a folder of its own."""
    libraries, share, number = server()
    root, source = f"{room}/root", f"{room}/source"
    shutil.copytree(f"{ROOT}/postgres", source, ignore=shutil.ignore_patterns("*.o", "*.so", "__pycache__"))
    env = {it: word for it, word in os.environ.items() if it not in ("MAKEFLAGS", "MAKELEVEL", "MFLAGS")}
    # (the code contains no path and no time)
    words = [f"LIBBORUVKA={release.libraries}/libboruvka.a", f"HEADERS={ROOT}/include", "COPT=-g0", "PG_LDFLAGS=-Wl,--build-id=none"]
    ended = subprocess.run(["make", "-s", "-C", source, *words], env=env, capture_output=True, text=True, check=False)
    if ended.returncode:
        raise NotPacked(ended.stderr.strip())
    code = f"{root}{libraries}/boruvka.so"
    put(code, read(f"{source}/boruvka.so"))
    strip(code)
    for name in os.listdir(source):
        if name.endswith((".sql", ".control")):
            put(f"{root}{share}/extension/{name}", read(f"{source}/{name}"))
    name = f"postgresql-{number}-boruvka"
    put(f"{root}/usr/share/doc/{name}/README.md.gz", gzipped(text_of("postgres/README.md").encode()))
    values = put_about(root, name, release)
    control = {"control": FOR_POSTGRES.replace("{depends}", depends([code])).replace("{server}", number)}
    return f"{name}_{release.version}_amd64.deb", built_by_dpkg(release, root, control, values)


def main(words):
    program, libraries, into, may = PROGRAM, LIBRARIES, [], False
    while words:
        word = words.pop(0)
        if word == "--program" and words:
            program = os.path.realpath(words.pop(0))
        elif word == "--libraries" and words:
            libraries = os.path.realpath(words.pop(0))
        elif word == "--may" and not words:
            may = True
        elif word.startswith("-") or into:
            print(__doc__, end="", file=sys.stderr)
            return 2
        else:
            into.append(os.path.realpath(word))
    why = refusal()
    if may or why:
        print(f"tools/dist.py: {why}" if why else "", end="\n" if why else "", file=sys.stderr)
        return 1 if why else 0
    folder = into[0] if into else f"{ROOT}/dist"
    try:
        release = Release(program, libraries)
        packs = [tarball, wheel]
        if shutil.which("dpkg-deb"):
            packs += [debian, *([extension] if server() else []), debian_of_python]
            if not server():
                print("PostgreSQL's headers are not there, so no .deb of its extension was made", file=sys.stderr)
        else:
            print("dpkg-deb is not there, so no .deb was made", file=sys.stderr)
        for pack in packs:
            with tempfile.TemporaryDirectory(prefix="boruvka-dist-") as room:
                name, content = pack(release, room)
            put(f"{folder}/{name}", content)
            print(f"{hashlib.sha256(content).hexdigest()}  {name}")
    except NotPacked as error:
        print(f"tools/dist.py: {error}", file=sys.stderr)
        return 1
    return 0


if __name__ == "__main__":
    sys.exit(main(sys.argv[1:]))
