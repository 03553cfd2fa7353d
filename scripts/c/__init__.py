"""The header, the source and the static library for C."""
