"""The version of the package, which is that of the program it was written beside."""

__version__ = "1.0.0"
