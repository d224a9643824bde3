"""The version of kazoo whose names and behaviour these are."""

__version__ = "2.8.0"
