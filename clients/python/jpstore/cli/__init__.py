"""The command line `jpstore-cli`, and the shell."""
from .command_line import exit_status, main

__all__ = ["exit_status", "main"]
