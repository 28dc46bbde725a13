"""What the tools share: lines and their objects, members, calls of the program, printed tables."""
