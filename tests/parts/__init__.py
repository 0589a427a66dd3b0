"""The parts of tests/tools."""
