"""The version of this package, which is that of the library in the same release."""

__version__ = "0.3.0"
