# PYTHON_ARGCOMPLETE_OK
"""The words of `python3 -m jpstore`."""
import sys

from .cli.command_line import main

if __name__ == "__main__":
    sys.exit(main())
