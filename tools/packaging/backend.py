"""The build backend of the module (PEP 517): setuptools where it is there, else a wheel by the standard library. pip
hides the setuptools of the system unless `--no-build-isolation` is given, and without a network it can't fetch one."""

try:
    import wheel  # noqa: F401
    from setuptools.build_meta import build_sdist, build_wheel
except ImportError:
    from plain_wheel import build_sdist, build_wheel

__all__ = ["build_sdist", "build_wheel"]
