"""Builds the packages of osi_session with the standard library alone (PEP 517), so no package index is needed. The same files
give the same octets; their time is SOURCE_DATE_EPOCH, or the earliest that a wheel can store.

A wheel has no library, and fits every platform. With two settings it has the shared library in it, and fits one platform; with a
third it also has the module in C that makes the calls of each message fast, for Python 3.9 and later:

    pip wheel --config-settings library=PATH --config-settings platform=linux_x86_64 --config-settings native=PATH .

`packaging/platform_of LIBRARY` at the top of the repository says which platforms a library fits. `make lib` builds the module,
`src/osi_session/_native.abi3.so`, if Python's headers are installed.
"""
import base64
import gzip
import hashlib
import io
import os
import re
import tarfile
import time
import zipfile

HERE = os.path.dirname(os.path.abspath(__file__))
# The licences are next to this file in a source distribution, and at the top of the repository.
PLACES = (HERE, os.path.dirname(os.path.dirname(HERE)))
FIRST_OF_ZIP = 315532800


def _project():
    with open(os.path.join(HERE, "pyproject.toml"), encoding="utf-8") as file:
        return file.read().partition("[project]\n")[2]


def _field(name):
    return re.search(rf'^{name} = "(.*)"$', _project(), re.MULTILINE).group(1)


def _list(name):
    return re.findall(r'"(.*?)"', re.search(rf"^{name} = \[(.*?)\]", _project(), re.MULTILINE | re.DOTALL).group(1))


VERSION = _field("version")
INFO = f"osi_session-{VERSION}.dist-info"


def _octets(path):
    with open(path, "rb") as file:
        return file.read()


def _licences():
    """The files of licences that are here, by name."""
    for name in _list("license-files"):
        path = next((os.path.join(place, name) for place in PLACES if os.path.isfile(os.path.join(place, name))), None)
        if path:
            yield name, _octets(path)


def _metadata():
    lines = [
        "Metadata-Version: 2.4",
        "Name: osi-session",
        f"Version: {VERSION}",
        f"Summary: {_field('description')}",
        f"Author: {', '.join(_list('authors'))}",
        f"License-Expression: {_field('license')}",
        *(f"License-File: {name}" for name, _ in _licences()),
        f"Keywords: {','.join(_list('keywords'))}",
        *(f"Project-URL: {name}, {link}" for name, link in re.findall(r'^(\w+) = "(https://.*)"$', _project(), re.MULTILINE)),
        *(f"Classifier: {each}" for each in _list("classifiers")),
        f"Requires-Python: {_field('requires-python')}",
        "Description-Content-Type: text/markdown",
    ]
    return ("\n".join(lines) + "\n\n").encode() + _octets(os.path.join(HERE, "README.md"))


def _python(settings):
    """The first tags of a wheel: the module in C is for CPython 3.9 and later, everything else for any Python."""
    return "cp39-abi3" if "native" in settings else "py3-none"


def _platforms(settings):
    return settings.get("platform", "linux_x86_64" if "library" in settings or "native" in settings else "any")


def _soname():
    text = _octets(os.path.join(HERE, "src", "osi_session", "_library.py")).decode()
    parts = re.search(r'^VERSION = "(.*)"$', text, re.MULTILINE).group(1).split(".")
    return "libosi-session.so." + ".".join(parts[: 2 if parts[0] == "0" else 1])


def _files(settings, editable):
    """What the wheel has: names, and octets."""
    folder = os.path.join(HERE, "src", "osi_session")
    if editable:
        yield "osi_session.pth", os.path.join(HERE, "src").encode()
    for name in sorted(os.listdir(folder)) if not editable else ():
        if name.endswith((".py", ".typed")):
            yield f"osi_session/{name}", _octets(os.path.join(folder, name))
    if "library" in settings:
        yield f"osi_session/{_soname()}", _octets(settings["library"])
    if "native" in settings:
        yield "osi_session/_native.abi3.so", _octets(settings["native"])
    yield f"{INFO}/METADATA", _metadata()
    is_pure = "false" if "library" in settings or "native" in settings else "true"
    tags = "".join(f"Tag: {_python(settings)}-{each}\n" for each in _platforms(settings).split("."))
    yield f"{INFO}/WHEEL", f"Wheel-Version: 1.0\nGenerator: wheels\nRoot-Is-Purelib: {is_pure}\n{tags}".encode()
    for name, octets in _licences():
        yield f"{INFO}/licenses/{name}", octets


def _time():
    return max(int(os.environ.get("SOURCE_DATE_EPOCH", 0)), FIRST_OF_ZIP)


def _put(wheel, path, octets):
    entry = zipfile.ZipInfo(path, time.gmtime(_time())[:6])
    entry.create_system, entry.external_attr, entry.compress_type = 3, 0o100644 << 16, zipfile.ZIP_DEFLATED
    wheel.writestr(entry, octets)


def _wheel(folder, settings, editable=False):
    name = f"osi_session-{VERSION}-{_python(settings)}-{_platforms(settings)}.whl"
    record = ""
    with zipfile.ZipFile(os.path.join(folder, name), "w") as wheel:
        for path, octets in _files(settings, editable):
            _put(wheel, path, octets)
            digest = base64.urlsafe_b64encode(hashlib.sha256(octets).digest()).rstrip(b"=").decode()
            record += f"{path},sha256={digest},{len(octets)}\n"
        _put(wheel, f"{INFO}/RECORD", (record + f"{INFO}/RECORD,,\n").encode())
    return name


def build_wheel(wheel_directory, config_settings=None, metadata_directory=None):
    return _wheel(wheel_directory, config_settings or {})


def build_editable(wheel_directory, config_settings=None, metadata_directory=None):
    return _wheel(wheel_directory, {}, editable=True)


def _sources():
    """What a source distribution has: names, and octets."""
    for name in ("pyproject.toml", "wheels.py", "README.md"):
        yield name, _octets(os.path.join(HERE, name))
    yield from _licences()
    yield "PKG-INFO", _metadata()
    for top in ("src/osi_session", "tests", "examples"):
        for name in sorted(os.listdir(os.path.join(HERE, top))):
            if name.endswith((".py", ".typed")):
                yield f"{top}/{name}", _octets(os.path.join(HERE, top, name))


def build_sdist(sdist_directory, config_settings=None):
    name = f"osi_session-{VERSION}"
    packed = io.BytesIO()
    with tarfile.open(fileobj=packed, mode="w", format=tarfile.PAX_FORMAT) as archive:
        for path, octets in _sources():
            entry = tarfile.TarInfo(f"{name}/{path}")
            entry.size, entry.mtime, entry.mode = len(octets), _time(), 0o755 if octets.startswith(b"#!") else 0o644
            archive.addfile(entry, io.BytesIO(octets))
    with open(os.path.join(sdist_directory, f"{name}.tar.gz"), "wb") as file:
        file.write(gzip.compress(packed.getvalue(), 9, mtime=_time()))
    return f"{name}.tar.gz"
