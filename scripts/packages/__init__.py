"""The Python of this repository: its layout, types, imports and tests."""
