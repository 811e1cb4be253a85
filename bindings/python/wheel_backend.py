"""Builds the wheel (PEP 517): the package and the library for C. The library is the file that STARLARK_LIB names, or that of
bindings/out, which bindings/build makes, or the installed one that pkg-config finds."""
import base64
import hashlib
import os
import re
import subprocess
import sysconfig
import zipfile

HERE = os.path.dirname(os.path.abspath(__file__))
PACKAGE, LIBRARY = "starlark_ast", "libstarlark_c.so"


def _project():
    """The strings of pyproject.toml. Python 3.10 has no reader of TOML."""
    with open(f"{HERE}/pyproject.toml", encoding="utf-8") as it:
        return dict(re.findall(r'^([a-z-]+) = "(.*)"$', it.read(), re.M))


def _library():
    named = os.environ.get("STARLARK_LIB")
    if named:
        return named
    built = os.path.join(HERE, "..", "out", LIBRARY)
    if os.path.isfile(built):
        return built
    try:
        words = ["pkg-config", "--variable=libdir", "starlark"]
        folder = subprocess.run(words, capture_output=True, text=True, check=True).stdout.strip()
    except (OSError, subprocess.SubprocessError):
        folder = ""
    if os.path.isfile(f"{folder}/{LIBRARY}"):
        return f"{folder}/{LIBRARY}"
    raise RuntimeError(f"{LIBRARY} is not found: run tools/install or bindings/build, or set STARLARK_LIB to its path")


def _tag():
    return "py3-none-" + re.sub("[-.]", "_", sysconfig.get_platform())


def _contents(project):
    """The path in the wheel and the bytes of each file, except RECORD."""
    sources = [it for it in sorted(os.listdir(f"{HERE}/{PACKAGE}")) if it.endswith((".py", ".typed"))]
    files = {**{f"{PACKAGE}/{it}": f"{HERE}/{PACKAGE}/{it}" for it in sources}, f"{PACKAGE}/{LIBRARY}": _library()}
    for path, source in files.items():
        with open(source, "rb") as it:
            yield path, it.read()
    with open(f"{HERE}/{project['readme']}", encoding="utf-8") as it:
        about = it.read()
    info = f"{PACKAGE}-{project['version']}.dist-info"
    said = {
        "Metadata-Version": "2.1", "Name": project["name"], "Version": project["version"], "Summary": project["description"],
        "License": "Apache-2.0", "Requires-Python": project["requires-python"], "Description-Content-Type": "text/markdown",
    }
    yield f"{info}/METADATA", ("".join(f"{key}: {value}\n" for key, value in said.items()) + "\n" + about).encode()
    yield f"{info}/WHEEL", f"Wheel-Version: 1.0\nGenerator: wheel_backend\nRoot-Is-Purelib: false\nTag: {_tag()}\n".encode()


def build_wheel(wheel_directory, config_settings=None, metadata_directory=None):
    project = _project()
    name, record = f"{PACKAGE}-{project['version']}-{_tag()}.whl", []
    with zipfile.ZipFile(os.path.join(wheel_directory, name), "w", zipfile.ZIP_DEFLATED) as wheel:

        def add(path, data):
            # A fixed time, so that each build has the same bytes.
            entry = zipfile.ZipInfo(path, (1980, 1, 1, 0, 0, 0))
            entry.external_attr, entry.compress_type = 0o100644 << 16, zipfile.ZIP_DEFLATED
            wheel.writestr(entry, data)

        for path, data in _contents(project):
            add(path, data)
            digest = base64.urlsafe_b64encode(hashlib.sha256(data).digest()).rstrip(b"=").decode()
            record.append(f"{path},sha256={digest},{len(data)}\n")
        own = f"{PACKAGE}-{project['version']}.dist-info/RECORD"
        add(own, "".join([*record, f"{own},,\n"]).encode())
    return name


def build_sdist(sdist_directory, config_settings=None):
    raise NotImplementedError("there is no source distribution: the library for C is built in the repository")
