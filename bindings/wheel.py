#!/usr/bin/env python3
"""wheel.py LIBRARY FOLDER: packs the Python module with the shared library in it, FOLDER/neddwyrol-VERSION-..-x86_64.whl, for
`pip install FILE` without a network. The library needs no C library, so it is for any Linux. The wheel's path is printed."""
import base64
import hashlib
import os
import sys
import zipfile

ROOT = os.path.dirname(os.path.dirname(os.path.abspath(__file__)))
TAGS = ["py3-none-manylinux2014_x86_64", "py3-none-musllinux_1_1_x86_64"]


def content(path, mode="rb"):
    with open(path, mode) as it:
        return it.read()


def main(library, folder):
    version = content(f"{ROOT}/VERSION", "r").strip()
    info = f"neddwyrol-{version}.dist-info"
    about = ["Metadata-Version: 2.1", "Name: neddwyrol", f"Version: {version}", "License: MIT", "Requires-Python: >=3.8",
             "Summary: The bandwidth accounting of Linux SCHED_DEADLINE (GRUB), over a proved library", ""]
    wheel = ["Wheel-Version: 1.0", "Generator: neddwyrol", "Root-Is-Purelib: false", *(f"Tag: {it}" for it in TAGS), ""]
    files = {
        "neddwyrol/__init__.py": content(f"{ROOT}/bindings/python/neddwyrol.py"),
        f"neddwyrol/{os.path.basename(library)}": content(library),
        f"{info}/METADATA": "\n".join(about).encode(),
        f"{info}/WHEEL": "\n".join(wheel).encode(),
    }
    sums = [f"{name},sha256={base64.urlsafe_b64encode(hashlib.sha256(data).digest()).decode().rstrip('=')},{len(data)}" for name, data in files.items()]
    files[f"{info}/RECORD"] = "\n".join([*sums, f"{info}/RECORD,,", ""]).encode()
    path = f"{folder}/neddwyrol-{version}-py3-none-{'.'.join(it.rpartition('-')[2] for it in TAGS)}.whl"
    with zipfile.ZipFile(path, "w", zipfile.ZIP_DEFLATED) as it:
        for name, data in files.items():
            it.writestr(zipfile.ZipInfo(name, (2026, 1, 1, 0, 0, 0)), data, zipfile.ZIP_DEFLATED)
    print(path)


if __name__ == "__main__":
    main(*sys.argv[1:])
