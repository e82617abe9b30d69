"""The version, of the package and of the program with which it was released."""
__all__ = ["__version__"]

__version__ = "1.0.0"
