"""Packs the package ww with its library as a wheel, for pip (build_wheel, by PEP 517), and for tools/dist:

    backend.py FOLDER LIBRARY TAG [FILE..]

writes the wheel for the platform TAG into FOLDER, with these files beside what a wheel says of itself, and prints its
name. Where SOURCE_DATE_EPOCH is set its files are of that time.
"""
import base64
import glob
import hashlib
import os
import re
import subprocess
import sys
import sysconfig
import tempfile
import time
import zipfile

C = os.path.dirname(os.path.dirname(os.path.abspath(__file__)))
NAME = "ww_locks"


def read(path):
    with open(path, "rb") as file:
        return file.read()


def version():
    """The library's version, as in ww_steps.h."""
    return ".".join(re.findall(r"#define WW_VERSION_[A-Z]+ (\d+)", read(f"{C}/include/ww_steps.h").decode()))


def pack(folder, library, platform, more=()):
    """Writes the wheel of this library, and of the debug library if that lies beside it, into the folder, and returns its name."""
    number, tag = version(), f"py3-none-{platform}"
    info = f"{NAME}-{number}.dist-info"
    metadata = f"Metadata-Version: 2.1\nName: {NAME}\nVersion: {number}\nSummary: wound/wait mutexes over a proved core\nRequires-Python: >=3.9\n"
    # The guide is the wheel's page, without links, which lead to files that aren't there.
    page = re.sub(r"\[([^][]*)\]\([^)]*\)", r"\1", read(f"{C}/python/README.md").decode())
    modules = sorted(glob.glob(f"{C}/python/ww/*.py")) + [f"{C}/python/ww/py.typed"]
    files = {f"ww/{os.path.basename(it)}": read(it) for it in modules}
    files |= {
        f"ww/libww.so.{number.split('.', maxsplit=1)[0]}": read(library),
        f"{info}/METADATA": f"{metadata}Description-Content-Type: text/markdown\n\n{page}".encode(),
        f"{info}/WHEEL": f"Wheel-Version: 1.0\nGenerator: {NAME}\nRoot-Is-Purelib: false\nTag: {tag}\n".encode(),
    }
    debug = library.replace("libww", "libww_debug")
    if os.path.exists(debug):
        files[f"ww/libww_debug.so.{number.split('.', maxsplit=1)[0]}"] = read(debug)
    files |= {f"{info}/{os.path.basename(it)}": read(it) for it in more}
    sums = {it: base64.urlsafe_b64encode(hashlib.sha256(text).digest()).rstrip(b"=").decode() for it, text in files.items()}
    record = "".join(f"{it},sha256={sums[it]},{len(text)}\n" for it, text in files.items()) + f"{info}/RECORD,,\n"
    name = f"{NAME}-{number}-{tag}.whl"
    stamp = time.gmtime(int(os.environ.get("SOURCE_DATE_EPOCH", time.time())))[:6]
    with zipfile.ZipFile(os.path.join(folder, name), "w", zipfile.ZIP_DEFLATED) as wheel:
        for it, text in {**files, f"{info}/RECORD": record.encode()}.items():
            entry = zipfile.ZipInfo(it, stamp)
            entry.external_attr = 0o100644 << 16
            entry.compress_type = zipfile.ZIP_DEFLATED
            wheel.writestr(entry, text)
    return name


def build_wheel(wheel_directory, config_settings=None, metadata_directory=None):
    """Called by pip."""
    with tempfile.TemporaryDirectory() as out:
        subprocess.run(["make", "-s", "-C", C, f"OUT={out}", f"{out}/libww.so", f"{out}/libww_debug.so"], check=True)
        platform = re.sub(r"[-.]", "_", sysconfig.get_platform())
        return pack(wheel_directory, f"{out}/libww.so", platform)


if __name__ == "__main__":
    print(pack(*sys.argv[1:4], sys.argv[4:]))
