"""What a program loads by `import jpstore`: each command of the shell waits for it."""
import subprocess
import sys

import pytest
from support import PACKAGE

# Each takes some hundredths of a second, and most programs use none of them.
_LATER = ("asyncio", "decimal", "difflib", "hashlib", "jpstore.adapt", "jpstore.aio", "jpstore.faults.query",
          "jpstore.faults.schema", "jpstore.patterns", "jpstore.scaled", "jsonschema")


@pytest.mark.parametrize("module", ["jpstore", "jpstore.cli"])
def test_what_takes_long_is_loaded_when_it_is_used(module):
    asked = f"import sys, {module}; print(*(name for name in {_LATER} if name in sys.modules))"
    loaded = subprocess.run([sys.executable, "-S", "-c", asked], stdout=subprocess.PIPE, env={"PYTHONPATH": PACKAGE},
                            check=True)
    assert loaded.stdout.decode() == "\n"


def test_what_is_loaded_later_is_there():
    asked = ("import jpstore; from jpstore import *; from jpstore.faults import *; "
             "print(Scaled, AsyncStore, Schema, Adapted, explain, detail_of)")
    subprocess.run([sys.executable, "-c", asked], stdout=subprocess.DEVNULL, env={"PYTHONPATH": PACKAGE}, check=True)
