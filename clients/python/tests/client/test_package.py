"""The package as it is installed, and its version."""
import importlib
import importlib.util
import os
import re
import shutil
import subprocess
import sys

import jpstore
import pytest
from support import PACKAGE

# What could be imported before the modules moved into packages.
BEFORE = {
    "jpstore":
        "AccessError AsyncStore Broken Change Conflict Document Ended Fault Full Gone Invalid JpstoreError "
        "JpstoreWarning LoadStopped Malformed Moment NoMemory Node NotFound Outdated Pumped REFUSALS Refusal "
        "Refused Status Store TimedOut TooLarge Unsendable Watch __version__ check_file copy_file create "
        "delete dump explain format_file grow load patch set_schema transaction upgrade_file",
    "jpstore.cli": "exit_status main",
    "jpstore.embedded": "SECTORS Embedded embedded_version format_embedded",
    "jpstore.errors":
        "AccessError Broken Conflict Ended Full Invalid JpstoreError JpstoreWarning Malformed NoMemory "
        "NotFound Outdated Refused TimedOut TooLarge Unsendable accessing refusal_of",
    "jpstore.refusals": "COMPLAINTS REFUSALS Refusal table",
    "jpstore.watch": "Change Gone Progress UNWATCHED Watch",
    "jpstore.once": "Once",
    "jpstore.moment": "CHANGED Document EXPORT Moment document_of moment_of moment_of_hub record_of",
    "jpstore.dump": "GROUP_LINES LoadStopped document_lines dump grow load open_store",
    "jpstore.explain": "Fault explain faults_of first_reason",
    "jpstore.merge": "operations_of_merge",
    "jpstore.results": "Node Pumped Status",
    "jpstore.edits": "put remove",
    "jpstore.notices": "notices_of_schema warn_of_command",
    "jpstore.progress": "Progress",
    "jpstore.version": "__version__",
}


@pytest.mark.parametrize("module", BEFORE)
def test_what_could_be_imported_can_be(module):
    found = importlib.import_module(module)
    assert not [name for name in BEFORE[module].split() if not hasattr(found, name)]


def test_all_that_is_public_is_there():
    assert all(hasattr(jpstore, name) for name in jpstore.__all__)
    for name in ("AsyncStore", "dump", "load", "grow", "__version__"):
        assert name in jpstore.__all__
    for value in map(jpstore.__dict__.get, jpstore.__all__):
        if isinstance(value, type) and issubclass(value, Exception) and not issubclass(value, Warning):
            assert issubclass(value, jpstore.JpstoreError)


def test_the_program_has_the_version_of_the_package(program):
    told = re.match(rb"jpstore (\S+) ", subprocess.check_output([program, "--version"]))
    assert told
    assert told.group(1).decode() == jpstore.__version__


def test_the_server_has_the_version_of_the_package(server):
    assert subprocess.check_output([server, "--version"]).decode() == f"jpstored {jpstore.__version__}\n"


HOW_TO_GET = (": it is in the Debian package jpstore, and `./build` of a clone puts it beside the program; "
              "JPSTORE_SERVER names one at another place\n")


@pytest.mark.parametrize("words", [["http"], ["hub", "--socket", "socket"]], ids=lambda words: words[0])
def test_who_has_no_server_is_told_how_to_get_it(place, words):
    environment = {**place.environment(), "PATH": place.folder, "JPSTORE_SERVER": ""}
    started = place.words(words[0], place.file, *words[1:])
    for found, named in (("jpstored is not on PATH", ""), ("nothing is not a program", "nothing")):
        words = [*started[:-2], "--program", sys.executable]
        ended = subprocess.run(words, env={**environment, "JPSTORE_SERVER": named}, stdout=subprocess.PIPE,
                               stderr=subprocess.PIPE, check=False)
        assert (ended.returncode, ended.stderr.decode()) == (1, found + HOW_TO_GET)


def test_the_server_beside_the_program_is_taken(place, server):
    os.mkdir(place.path("bin"))
    for name, path in (("jpstore", place.program), ("jpstored", server)):
        os.symlink(path, place.path(f"bin/{name}"))
    for environment, program in (({"PATH": place.path("bin")}, None), ({"PATH": "/"}, place.path("bin/jpstore"))):
        words = [sys.executable, "-m", "jpstore", "hub", "--help"]
        assert subprocess.call(words, env={**place.environment(), **environment}, stdout=subprocess.DEVNULL) == 0
        found = subprocess.check_output(
            [sys.executable, "-c", f"from jpstore import server; print(server.find_server({program!r}))"],
            env={**place.environment(), "JPSTORE_SERVER": "", **environment})
        assert found.decode() == place.path("bin/jpstored") + "\n"


def test_no_text_of_the_package_installs_one_by_its_name():
    # The name belongs to nobody in the registry: whoever takes it would be installed.
    for folder, _, names in os.walk(os.path.join(PACKAGE, "jpstore")):
        for name in names:
            if name.endswith(".py"):
                with open(os.path.join(folder, name), encoding="utf-8") as opened:
                    assert not re.search(r"pip install ['\"]?jpstore", opened.read()), name


def test_it_is_installed_without_a_network(place):
    found = {needed: importlib.util.find_spec(needed) for needed in ("pip", "setuptools", "wheel")}
    if None in found.values():
        pytest.skip(f"this needs {', '.join(found)}")
    folders = {os.path.dirname(os.path.dirname(spec.origin)) for spec in found.values()}
    environment = place.path("environment")
    subprocess.run([sys.executable, "-m", "venv", "--without-pip", environment], check=True)
    # The folder is copied, since setuptools builds in it.
    left_out = shutil.ignore_patterns("tests", "__pycache__", "build")
    source = shutil.copytree(PACKAGE, place.path("source"), ignore=left_out)
    python = os.path.join(environment, "bin", "python")
    words = ["install", "--no-build-isolation", "--no-index", "--no-deps", "--quiet", "--disable-pip-version-check"]
    with_tools = {**os.environ, "PYTHONPATH": os.pathsep.join(folders)}
    installed = subprocess.run([python, "-m", "pip", *words, source], env=with_tools, stdout=subprocess.PIPE,
                               stderr=subprocess.STDOUT, check=False)
    assert installed.returncode == 0, installed.stdout.decode()
    clean = {name: value for name, value in os.environ.items() if name != "PYTHONPATH"}
    command = os.path.join(environment, "bin", "jpstore-cli")
    for told in ([command, "--version"], [python, "-m", "jpstore", "--version"]):
        assert subprocess.check_output(told, env=clean, cwd=place.folder).decode() == f"jpstore {jpstore.__version__}\n"
    place.format(16)
    with_program = ["--program", place.program]
    for words, said in ((["new", place.file, "d", "1"], b"done, change 1\n"), (["get", place.file, "d"], b"1\n")):
        assert subprocess.check_output([command, *words, *with_program], env=clean) == said
    code = "import importlib.metadata, jpstore; print(importlib.metadata.version('jpstore'), jpstore.__path__[0])"
    version, folder = subprocess.check_output([python, "-c", code], env=clean).decode().split()
    assert version == jpstore.__version__
    for file in ("py.typed", "replica/node.py"):
        assert os.path.exists(os.path.join(folder, file)), file
