"""Makes the wheel that `pip install` asks for. The package is Python alone, so a wheel is an archive of its files, and pip needs nothing from
elsewhere: `pip install ./clients/python` works without a network."""
import base64
import hashlib
import zipfile
from pathlib import Path

NAME = "papledger"
VERSION = "1.0.0"
SOURCES = Path(__file__).resolve().parent.parent / "src"
METADATA = f"""Metadata-Version: 2.1
Name: {NAME}
Version: {VERSION}
Summary: Keeps a year of pay runs in a folder that survives, over papcalc
Requires-Python: >=3.9
"""
WHEEL = """Wheel-Version: 1.0
Generator: papledger
Root-Is-Purelib: true
Tag: py3-none-any
"""
COMMAND = f"[console_scripts]\n{NAME} = {NAME}.command:main\n"


def get_requires_for_build_wheel(config_settings=None):
    return []


def build_wheel(wheel_directory, config_settings=None, metadata_directory=None):
    """Writes the wheel into the folder, and gives its name."""
    name = f"{NAME}-{VERSION}-py3-none-any.whl"
    info = f"{NAME}-{VERSION}.dist-info"
    files = {path.relative_to(SOURCES).as_posix(): path.read_bytes() for path in sorted((SOURCES / NAME).iterdir()) if path.is_file()}
    files |= {f"{info}/METADATA": METADATA.encode(), f"{info}/WHEEL": WHEEL.encode(), f"{info}/entry_points.txt": COMMAND.encode()}
    record = "".join(f"{path},sha256={digest(content)},{len(content)}\n" for path, content in files.items())
    with zipfile.ZipFile(Path(wheel_directory, name), "w", zipfile.ZIP_DEFLATED) as wheel:
        for path, content in [*files.items(), (f"{info}/RECORD", f"{record}{info}/RECORD,,\n".encode())]:
            wheel.writestr(path, content)
    return name


def digest(content):
    return base64.urlsafe_b64encode(hashlib.sha256(content).digest()).rstrip(b"=").decode("ascii")
