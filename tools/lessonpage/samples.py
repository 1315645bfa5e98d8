"""The sample files, by name."""

from . import paths


def sample(name: str) -> tuple:
    """A sample's name, and its bytes."""
    return name, (paths.SAMPLES / name).read_bytes()
