"""The parts of tools/why, and of the tools beside it."""
