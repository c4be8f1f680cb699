"""Puts the package and the library into a wheel: what pip calls for `pip install ./python`.

The library is that which OBS_LIBRARY names; else libobs.so as the package finds it: beside it, in the folder that holds `python`, or where
tools/library builds it. Where there is none, or one of another version, that is said in a line and no wheel is made. The same package and
library make the same wheel, byte for byte. The wheel is for x86_64 and for the C library that libobs.so asks for, and later ones.
"""
import base64
import hashlib
import os
import re
import sys
import zipfile

HERE = os.path.dirname(os.path.abspath(__file__))
sys.path.insert(0, HERE)

from obs import library
from obs.faults import LibraryMissing
from obs.versions import VERSION, version

NAME = "obs"
INFO = f"{NAME}-{VERSION}.dist-info"
METADATA = f"""Metadata-Version: 2.1
Name: {NAME}
Version: {VERSION}
Summary: Topological observability of power networks, proved
Requires-Python: >=3.8
Classifier: Typing :: Typed
"""


def stop(text):
    sys.exit(f"obs: {text}")


def library_file():
    """The library that the wheel is to have."""
    try:
        file, found = library.path(), version()
    except LibraryMissing as missing:
        stop(missing)
    if found != VERSION:
        stop(f"{file} is of version {found}, and this package of {VERSION}: build it anew by tools/library")
    return file


def oldest_glibc(content):
    """The newest version of the C library that the file asks for, as (2, 17); no wheel names one before (2, 5)."""
    found = re.findall(rb"GLIBC_(\d+)\.(\d+)", content)
    return max([(2, 5), *((int(first), int(second)) for first, second in found)])


def tag_of(content):
    return "py3-none-manylinux_%d_%d_x86_64" % oldest_glibc(content)


def info(tag):
    """The files that say what the wheel is."""
    wheel = f"Wheel-Version: 1.0\nGenerator: obs\nRoot-Is-Purelib: false\nTag: {tag}\n"
    return {f"{INFO}/METADATA": METADATA.encode(), f"{INFO}/WHEEL": wheel.encode()}


def package():
    """The files of the package, without the library."""
    names = sorted(name for name in os.listdir(os.path.join(HERE, NAME)) if name.endswith((".py", ".typed")))
    return {f"{NAME}/{name}": content_of(os.path.join(HERE, NAME, name)) for name in names}


def content_of(file):
    with open(file, "rb") as opened:
        return opened.read()


def record(files):
    """The list of all files with their sums."""
    lines = []
    for name, content in files.items():
        digest = base64.urlsafe_b64encode(hashlib.sha256(content).digest()).rstrip(b"=").decode()
        lines.append(f"{name},sha256={digest},{len(content)}\n")
    return "".join([*lines, f"{INFO}/RECORD,,\n"]).encode()


def get_requires_for_build_wheel(config_settings=None):
    return []


def prepare_metadata_for_build_wheel(metadata_directory, config_settings=None):
    for name, content in info(tag_of(content_of(library_file()))).items():
        os.makedirs(os.path.join(metadata_directory, INFO), exist_ok=True)
        with open(os.path.join(metadata_directory, name), "wb") as file:
            file.write(content)
    return INFO


def build_wheel(wheel_directory, config_settings=None, metadata_directory=None):
    content = content_of(library_file())
    tag = tag_of(content)
    files = {**package(), f"{NAME}/{library.FILE}": content, **info(tag)}
    files[f"{INFO}/RECORD"] = record(files)
    name = f"{NAME}-{VERSION}-{tag}.whl"
    with zipfile.ZipFile(os.path.join(wheel_directory, name), "w", zipfile.ZIP_DEFLATED) as wheel:
        for path, one in files.items():
            entry = zipfile.ZipInfo(path, (1980, 1, 1, 0, 0, 0))
            entry.external_attr, entry.compress_type = 0o644 << 16, zipfile.ZIP_DEFLATED
            wheel.writestr(entry, one)
    return name


def build_sdist(sdist_directory, config_settings=None):
    stop("a package of sources has no library; make a wheel: pip wheel ./python")
