"""Builds fastcat._nodes where a compiler and Python's headers are: the package does without it, and is slower."""

from setuptools import Extension, setup

setup(ext_modules=[Extension("fastcat._nodes", ["fastcat/_nodes.c"], extra_compile_args=["-std=c11", "-O2"], optional=True)])
