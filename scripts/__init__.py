"""The evidence's scripts as one package, with one command, `scripts/house`: what the gate checks, what is written into
pages, what is tried outside the gate, and how a release is packed. `table` lists them.

pages       the pages of docs/ and README: their parts that are written, their links and words, and what they cite
packages    the Python of this repository: its layout, types, imports and tests
product     the built program over what is stored, worked by hand and made; which program and library are taken
c           the header, the source and the static library for C
bounding    the bounds of calls from C, by the machine code
tries       what stands in no gate: faults of the system, random inputs, counted bounds, a browser
packing     a release
"""
