"""Runs a program over the cases of tests/why and compares what it prints: the drill's lines and the line why.

Usage: check.py PROGRAM [ARGUMENT].., at the repository's root.
"""
import sys

sys.dont_write_bytecode = True
sys.path.insert(0, "tests/independent")
from compare_drills import compare

compare("tests/why", *sys.argv[1:])
