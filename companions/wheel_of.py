"""Makes the wheel that `pip install ./companions` asks for (PEP 517).

It needs nothing but Python, so that pip needs no network. The same files
give the same wheel, byte for byte.
"""
import base64
import hashlib
import re
import zipfile
from pathlib import Path
from typing import Dict, Optional

HERE = Path(__file__).parent
INIT = (HERE / "bagitkeep" / "__init__.py").read_text("utf-8")
(VERSION,) = re.findall(r'^__version__ = "(.*)"$', INIT, re.M)
NAME = f"bagitkeep-{VERSION}"

METADATA = f"""Metadata-Version: 2.1
Name: bagitkeep
Version: {VERSION}
Requires-Python: >=3.9
"""
WHEEL = """Wheel-Version: 1.0
Generator: wheel_of
Root-Is-Purelib: true
Tag: py3-none-any
"""
SCRIPTS = "[console_scripts]\nbagit-keep = bagitkeep.__main__:run\n"


def record_of(files: Dict[str, bytes]) -> bytes:
    """The list of the files of a wheel, with their digests."""
    lines = []
    for name, content in files.items():
        digest = base64.urlsafe_b64encode(hashlib.sha256(content).digest())
        text = digest.decode().rstrip("=")
        lines.append(f"{name},sha256={text},{len(content)}\n")
    return "".join([*lines, f"{NAME}.dist-info/RECORD,,\n"]).encode()


def build_wheel(
    wheel_directory: str,
    config_settings: Optional[Dict[str, str]] = None,
    metadata_directory: Optional[str] = None,
) -> str:
    """Writes the wheel into a folder, and gives its name there."""
    sources = sorted((HERE / "bagitkeep").glob("*.py"))
    sources += sorted((HERE / "bagitkeep").glob("templates/*"))
    sources.append(HERE / "bagitkeep" / "py.typed")
    names = [path.relative_to(HERE).as_posix() for path in sources]
    files = {it: (HERE / it).read_bytes() for it in names}
    files[f"{NAME}.dist-info/METADATA"] = METADATA.encode()
    files[f"{NAME}.dist-info/WHEEL"] = WHEEL.encode()
    files[f"{NAME}.dist-info/entry_points.txt"] = SCRIPTS.encode()
    files[f"{NAME}.dist-info/RECORD"] = record_of(files)
    name = f"{NAME}-py3-none-any.whl"
    with zipfile.ZipFile(Path(wheel_directory) / name, "w") as wheel:
        for path, content in files.items():
            wheel.writestr(zipfile.ZipInfo(path), content)
    return name
