"""The version: that of include/relief.h."""

__version__ = "0.5.0"
