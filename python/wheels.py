"""Makes the package's wheel with the standard library alone, so that `pip install ./python` needs no network: pyproject.toml names it, tools/wheel calls it."""
import base64
import hashlib
import pathlib
import re
import zipfile

PACKAGE = pathlib.Path(__file__).resolve().parent / "dobutsu"
KIND = "Wheel-Version: 1.0\nGenerator: tools/wheel\nRoot-Is-Purelib: {}\nTag: {}\n"
ABOUT = """Metadata-Version: 2.1
Name: dobutsu
Version: {}
Summary: Values of Dobutsu shogi by a database file
Requires-Python: >=3.9
Classifier: Typing :: Typed
Description-Content-Type: text/markdown

{}"""


def tag(library):
    return "py3-none-linux_x86_64" if library else "py3-none-any"


def files(version, library):
    """Names in the wheel, and bytes."""
    for path in sorted(PACKAGE.iterdir()):
        if path.suffix == ".py" or path.name == "py.typed":
            yield f"dobutsu/{path.name}", path.read_bytes()
    if library:
        yield "dobutsu/libdobutsu.so", pathlib.Path(library).read_bytes()
    about = ABOUT.format(version, (PACKAGE.parent / "README.md").read_text(encoding="utf-8"))
    yield f"dobutsu-{version}.dist-info/METADATA", about.encode()
    yield f"dobutsu-{version}.dist-info/WHEEL", KIND.format(str(not library).lower(), tag(library)).encode()


def record(name, content):
    digest = base64.urlsafe_b64encode(hashlib.sha256(content).digest()).rstrip(b"=").decode()
    return f"{name},sha256={digest},{len(content)}\n"


def made(folder, library=None):
    """Makes the wheel in the folder, with that shared library where one is given, the same bytes each time; its path."""
    version = re.search(r'__version__ = "(.*)"', (PACKAGE / "__init__.py").read_text(encoding="utf-8"))[1]
    held = list(files(version, library))
    list_name = f"dobutsu-{version}.dist-info/RECORD"
    held.append((list_name, ("".join(record(*each) for each in held) + f"{list_name},,\n").encode()))
    path = pathlib.Path(folder) / f"dobutsu-{version}-{tag(library)}.whl"
    with zipfile.ZipFile(path, "w", zipfile.ZIP_DEFLATED) as wheel:
        for name, content in held:
            entry = zipfile.ZipInfo(name)  # 1980, the least that a zip can say
            entry.external_attr = 0o644 << 16
            entry.compress_type = zipfile.ZIP_DEFLATED
            wheel.writestr(entry, content)
    return path


def build_wheel(wheel_directory, config_settings=None, metadata_directory=None):
    """What pip calls (PEP 517)."""
    return made(wheel_directory).name
