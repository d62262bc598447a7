"""Tells setuptools the version, which stands in CHANGES.md above this folder; all else stands in pyproject.toml."""
import sys
from pathlib import Path

from setuptools import setup

sys.path.insert(0, str(Path(__file__).resolve().parent))
from acas_version import CHANGES, version_of  # noqa: E402

setup(version=version_of(CHANGES.read_text(encoding="utf-8")))
