"""Packs the wheel, with the shared object in it: a backend of PEP 517 that needs nothing but Python.

`python3 packing.py FOLDER` leaves the wheel in the folder, and so does `pip wheel .`, where
`make bindings` was run before or P2P_SIMULATED_SO names the shared object.
"""

import base64
import hashlib
import os
import sys
import zipfile
from pathlib import Path

NAME, VERSION, TAG = "p2p_simulated", "0.1.0", "py3-none-linux_x86_64"
HERE = Path(__file__).resolve().parent
METADATA = f"""Metadata-Version: 2.1
Name: {NAME}
Version: {VERSION}
Summary: A simulated link scheduler whose every function is proved: max-min fair rates, and when each message arrives.
License: Apache-2.0
Requires-Python: >=3.8
Description-Content-Type: text/markdown

"""
WHEEL = f"Wheel-Version: 1.0\nGenerator: packing.py\nRoot-Is-Purelib: false\nTag: {TAG}\n"


def shared_object():
    named = os.environ.get("P2P_SIMULATED_SO")
    return Path(named) if named else HERE.parents[1] / "bin" / "bindings" / "libp2p_simulated.so"


def license_text():
    return next(place for place in (HERE / "LICENSE", HERE.parents[1] / "LICENSE") if place.exists()).read_bytes()


def contents():
    """Each file of the wheel, by its name in it."""
    for place in sorted((HERE / NAME).iterdir()):
        if place.suffix == ".py" or place.name == "py.typed":
            yield f"{NAME}/{place.name}", place.read_bytes()
    yield f"{NAME}/libp2p_simulated.so", shared_object().read_bytes()
    info = f"{NAME}-{VERSION}.dist-info"
    yield f"{info}/LICENSE", license_text()
    yield f"{info}/METADATA", (METADATA + (HERE / "README.md").read_text()).encode()
    yield f"{info}/WHEEL", WHEEL.encode()


def build_wheel(wheel_directory, config_settings=None, metadata_directory=None):
    wheel = f"{NAME}-{VERSION}-{TAG}.whl"
    record, info = "", f"{NAME}-{VERSION}.dist-info/RECORD"
    with zipfile.ZipFile(Path(wheel_directory) / wheel, "w", zipfile.ZIP_DEFLATED) as file:
        for name, octets in contents():
            entry = zipfile.ZipInfo(name)  # of 1980, so that one source makes one wheel
            entry.external_attr = 0o644 << 16
            file.writestr(entry, octets, zipfile.ZIP_DEFLATED)
            digest = base64.urlsafe_b64encode(hashlib.sha256(octets).digest()).rstrip(b"=").decode()
            record += f"{name},sha256={digest},{len(octets)}\n"
        file.writestr(zipfile.ZipInfo(info), record + f"{info},,\n", zipfile.ZIP_DEFLATED)
    return wheel


if __name__ == "__main__":
    build_wheel(sys.argv[1])
