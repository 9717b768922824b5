"""The version, that of the repository."""
__version__ = "0.4.0"
