"""Tests of the scripts of the gate: each must see the faults that are planted in a copy of the repository."""
