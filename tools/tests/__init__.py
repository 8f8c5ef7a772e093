"""Tests of the tools: python3 -m unittest discover -s tools/tests -t tools. Those that play need a program (GEO_PROGRAM, or a build)."""
