"""Builds the wheel with the standard library alone: the package `incr` and libincr.so, which `make -C embed` has made."""

import base64
import hashlib
import pathlib
import re
import sysconfig
import zipfile

HERE = pathlib.Path(__file__).resolve().parent


def _project():
    """The values of pyproject.toml that are strings, and the version, which the package has."""
    project = dict(re.findall(r'^([a-z-]+) = "(.*)"$', (HERE / "pyproject.toml").read_text(encoding="utf-8"), re.M))
    project["version"] = re.search(r'^__version__ = "(.*)"$', (HERE / "incr/__init__.py").read_text(encoding="utf-8"), re.M)[1]
    return project


def _files(project, tag):
    library = HERE.parent / "out/libincr.so"
    if not library.exists():
        raise SystemExit("there is no embed/out/libincr.so: run `make -C embed`")
    files = {"incr/" + name: (HERE / "incr" / name).read_bytes() for name in ("__init__.py", "_words.py", "py.typed")}
    files["incr/libincr.so"] = library.read_bytes()
    info = "%s-%s.dist-info/" % (project["name"], project["version"])
    files[info + "METADATA"] = (
        "Metadata-Version: 2.1\nName: %(name)s\nVersion: %(version)s\nSummary: %(description)s\nRequires-Python: %(requires-python)s\n" % project
    ).encode()
    files[info + "WHEEL"] = ("Wheel-Version: 1.0\nGenerator: garovymba\nRoot-Is-Purelib: false\nTag: %s\n" % tag).encode()
    record = ["%s,sha256=%s,%d\n" % (name, _digest(body), len(body)) for name, body in files.items()]
    files[info + "RECORD"] = ("".join(record) + info + "RECORD,,\n").encode()
    return files


def _digest(body):
    return base64.urlsafe_b64encode(hashlib.sha256(body).digest()).rstrip(b"=").decode()


def build_wheel(wheel_directory, config_settings=None, metadata_directory=None):
    project = _project()
    tag = "py3-none-" + re.sub(r"[-.]", "_", sysconfig.get_platform())
    wheel = "%s-%s-%s.whl" % (project["name"], project["version"], tag)
    with zipfile.ZipFile(pathlib.Path(wheel_directory) / wheel, "w", zipfile.ZIP_DEFLATED) as archive:
        for name, body in _files(project, tag).items():
            # (the same files make the same wheel, whenever it is made)
            archive.writestr(zipfile.ZipInfo(name, (1980, 1, 1, 0, 0, 0)), body)
    return wheel


def build_sdist(sdist_directory, config_settings=None):
    raise SystemExit("there is no source distribution: the library is proved and built in the repository")
