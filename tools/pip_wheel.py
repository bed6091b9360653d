"""What pip calls to install the module `adp` from the checkout (pyproject.toml). It needs nothing but Python.

The package has the module, its types, the command `adp`, and below `lib` the launcher with the program, where one was
built from these sources; what `tools/longest` and `--explain` need stands there too. The same files give the same wheel, byte for byte.
"""
import base64
import hashlib
import os
import re
import subprocess
import zipfile

TOP = os.path.dirname(os.path.dirname(os.path.realpath(__file__)))
SUMMARY = "Algebraic dynamic programming with proved answers, from Python"


def _version():
    with open(os.path.join(TOP, "tools/adp.py"), encoding="ascii") as file:
        return re.search(r'^__version__ = "(.*)"$', file.read(), re.M).group(1)


def _program():
    """The program that was built from these sources; nothing where there is none."""
    try:
        told = subprocess.run([os.path.join(TOP, "adp"), "--version"], stdin=subprocess.DEVNULL, capture_output=True,
                              text=True, check=False).stdout
    except OSError:
        return None
    found = re.search(r"^program (.*)$", told, re.M)
    return found and found.group(1)


def _files():
    """The files of the package: their names, and where they stand."""
    files = {"adp/__init__.py": "tools/adp.py", "adp/py.typed": "tools/py.typed"}
    program = _program()
    if program:
        files |= {"adp/lib/adp": "adp", "adp/lib/docs/FAULTS.md": "docs/FAULTS.md",
                  "adp/lib/prebuilt/adp": program,
                  "adp/lib/prebuilt/sources": os.path.join(os.path.dirname(program), "sources")}
        files |= {f"adp/lib/tools/{name}": f"tools/{name}" for name in ("check-certificate", "explain.awk", "longest")}
    return files


def _write(folder, tag, contents):
    """Writes a wheel of files with what stands in each, and whether it can be run."""
    version = _version()
    info = f"adp-{version}.dist-info"
    is_pure = "true" if tag.endswith("-any") else "false"
    contents[f"{info}/METADATA"] = (f"Metadata-Version: 2.1\nName: adp\nVersion: {version}\nSummary: {SUMMARY}\n"
                                    "Requires-Python: >=3.10\n").encode(), False
    contents[f"{info}/WHEEL"] = (f"Wheel-Version: 1.0\nGenerator: tools/pip_wheel.py\nRoot-Is-Purelib: {is_pure}\n"
                                 f"Tag: {tag}\n").encode(), False
    contents[f"{info}/entry_points.txt"] = b"[console_scripts]\nadp = adp:main\n", False
    lines = []
    for name, (content, _) in contents.items():
        digest = base64.urlsafe_b64encode(hashlib.sha256(content).digest()).rstrip(b"=").decode()
        lines.append(f"{name},sha256={digest},{len(content)}\n")
    contents[f"{info}/RECORD"] = "".join([*lines, f"{info}/RECORD,,\n"]).encode(), False
    wheel = f"adp-{version}-{tag}.whl"
    with zipfile.ZipFile(os.path.join(folder, wheel), "w", zipfile.ZIP_DEFLATED) as out:
        for name, (content, can_run) in contents.items():
            entry = zipfile.ZipInfo(name)
            entry.external_attr = (0o100755 if can_run else 0o100644) << 16
            entry.compress_type = zipfile.ZIP_DEFLATED
            out.writestr(entry, content)
    return wheel


def build_wheel(wheel_directory, config_settings=None, metadata_directory=None):
    """The wheel of `pip install .`."""
    contents = {}
    for name, path in _files().items():
        path = os.path.join(TOP, path)
        with open(path, "rb") as file:
            contents[name] = file.read(), os.access(path, os.X_OK)
    contents["adp/__main__.py"] = b"import sys\n\nfrom adp import main\n\nsys.exit(main())\n", False
    tag = "py3-none-linux_x86_64" if "adp/lib/adp" in contents else "py3-none-any"
    return _write(wheel_directory, tag, contents)


def build_editable(wheel_directory, config_settings=None, metadata_directory=None):
    """The wheel of `pip install -e .`: it leads to the checkout."""
    return _write(wheel_directory, "py3-none-any", {"adp.pth": (os.path.join(TOP, "tools\n").encode(), False)})
