"""Makes the wheel (PEP 517): the package, and librstar.so from $RSTAR_LIB_DIR or out/library."""

import os
import zipfile
from base64 import urlsafe_b64encode
from hashlib import sha256
from pathlib import Path
from sysconfig import get_platform

HERE = Path(__file__).resolve().parent
NAME = "vaikrone-0.14.0"  # with the version of rstar
METADATA = """\
Metadata-Version: 2.1
Name: vaikrone
Version: 0.14.0
Summary: An R*-tree over rectangles, whose answers are proved
License: MIT OR Apache-2.0
Requires-Python: >=3.10
"""
WHEEL = """\
Wheel-Version: 1.0
Generator: build_backend.py
Root-Is-Purelib: false
Tag: {}
"""


def build_wheel(wheel_directory, config_settings=None, metadata_directory=None):
    library = Path(os.environ.get("RSTAR_LIB_DIR") or HERE.parents[1] / "out/library") / "librstar.so"
    if not library.exists():
        raise FileNotFoundError(f"{library} is missing: scripts/build_library.sh makes it")
    tag = "py3-none-" + get_platform().replace("-", "_").replace(".", "_")
    info = NAME + ".dist-info/"
    files = {"vaikrone/" + path.name: path.read_bytes() for path in sorted((HERE / "vaikrone").glob("*.py"))}
    files["vaikrone/py.typed"] = b""
    files["vaikrone/librstar.so"] = library.read_bytes()
    files[info + "METADATA"] = METADATA.encode()
    for name in ("LICENSE-MIT", "LICENSE-APACHE"):
        files[info + name] = (HERE.parents[1] / name).read_bytes()
    files[info + "WHEEL"] = WHEEL.format(tag).encode()
    record = [f"{name},sha256={digest(content)},{len(content)}\n" for name, content in files.items()]
    files[info + "RECORD"] = "".join(record + [info + "RECORD,,\n"]).encode()
    wheel = f"{NAME}-{tag}.whl"
    with zipfile.ZipFile(Path(wheel_directory) / wheel, "w", zipfile.ZIP_DEFLATED) as archive:
        for name, content in files.items():
            archive.writestr(name, content)
    return wheel


def digest(content):
    return urlsafe_b64encode(sha256(content).digest()).rstrip(b"=").decode()
