"""Makes a wheel for pip of what bindings/package builds, with nothing but Python itself.

It links libchangecap.a of the folder in the environment variable CHANGECAP_LIB, else of bindings/out of these sources.
"""
import base64
import hashlib
import os
import re
import subprocess
import sys
import sysconfig
import tempfile
import zipfile

HERE = os.path.dirname(os.path.abspath(__file__))
BINDINGS = os.path.dirname(HERE)


def version():
    with open(f"{BINDINGS}/../include/changecap.h", encoding="utf-8") as file:
        return re.search(r"^#define CHANGECAP_VERSION \"(.*)\"", file.read(), re.M)[1]


def tag():
    """The tag of a wheel for this Python alone, as in cp311-cp311-linux_x86_64."""
    own = f"cp{sys.version_info.major}{sys.version_info.minor}"
    flags = "t" if sysconfig.get_config_var("Py_GIL_DISABLED") else ""
    return f"{own}-{own}{flags}-{re.sub('[-.]', '_', sysconfig.get_platform())}"


def built(folder):
    """The files of the package, built in this folder: each name with its bytes."""
    archive = os.path.abspath(os.path.join(os.environ.get("CHANGECAP_LIB") or f"{BINDINGS}/out", "libchangecap.a"))
    if not os.path.exists(archive):
        sys.exit(f"{archive} is not there: `make lib` at the top of changecap's sources makes it, or the environment "
                 "variable CHANGECAP_LIB names its folder")
    os.symlink(archive, f"{folder}/libchangecap.a")
    subprocess.run([sys.executable, f"{BINDINGS}/package", folder], check=True)
    for name in sorted(os.listdir(f"{folder}/python/changecap")):
        if not name.startswith("__pycache__"):
            with open(f"{folder}/python/changecap/{name}", "rb") as file:
                yield f"changecap/{name}", file.read()


def build_wheel(wheel_directory, config_settings=None, metadata_directory=None):
    """Writes the wheel and answers its name, as PEP 517 has it."""
    with tempfile.TemporaryDirectory() as folder:
        files = dict(built(folder))
    return write_wheel(wheel_directory, "changecap", tag(), files)


def write_wheel(directory, project, tag, files, requires="", info=()):
    """Writes a wheel of files, each name with its bytes, and answers its name. `requires` has lines of its metadata, and
    `info` further files of its folder with them."""
    folder, name = f"{project}-{version()}.dist-info", f"{project}-{version()}-{tag}.whl"
    files = {**files, **{f"{folder}/{it}": content for it, content in dict(info).items()}}
    files[f"{folder}/METADATA"] = (f"Metadata-Version: 2.1\nName: {project.replace('_', '-')}\nVersion: {version()}\n"
                                   f"Requires-Python: >=3.10\n{requires}").encode()
    is_pure = str(tag.endswith("-any")).lower()
    files[f"{folder}/WHEEL"] = (f"Wheel-Version: 1.0\nGenerator: changecap\nRoot-Is-Purelib: {is_pure}\n"
                                f"Tag: {tag}\n").encode()
    record = f"{folder}/RECORD"
    lines = [f"{path},sha256={digest(it)},{len(it)}\n" for path, it in files.items()]
    files[record] = "".join([*lines, f"{record},,\n"]).encode()
    with zipfile.ZipFile(f"{directory}/{name}", "w", zipfile.ZIP_DEFLATED) as wheel:
        for path, content in files.items():
            wheel.writestr(path, content)
    return name


def digest(content):
    return base64.urlsafe_b64encode(hashlib.sha256(content).digest()).rstrip(b"=").decode()
