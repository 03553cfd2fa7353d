"""What `scripts/house show bounds` makes of machine code: for each call of a library the most stack, instructions,
divisions and accesses to memory. Each step refuses what it can't bound.

decoding  the bytes of an instruction as its name and operands, by Capstone
code      functions with their instructions, and where calls and jumps lead
objects   the objects of an archive, with their symbols and their jump tables, by pyelftools
flow      which instruction may follow which, and the loops
frames    how deep a function uses the stack, and how deep it calls another
library   the functions of all objects, and who calls whom
work      the heaviest path through a call
table     scripts/bounds.toml: how often each loop turns, and the clause that says so
page      what docs/FROM-C.md and docs/INTEGRATION.md have of it
counted   what callgrind counts of the same calls
"""
