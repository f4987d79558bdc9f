"""Tests of the package: python3 -m unittest discover -s host/python, from the root of the clone. None needs a network."""
import pathlib

ROOT = pathlib.Path(__file__).resolve().parents[3]
EXAMPLES = sorted((ROOT / "examples").glob("*.yard"))
