"""The evidence's package: an exact model of `sdm`, and makers of inputs for the program and the model.

`model` is what the program must write, in exact fractions. `makers` make journeys, drives, certificates and rides from
a seed. Both need the standard library alone, and `model` needs no maker; the package `sdm` reaches the model by
`sdm.exact`, and is installed with it, without the makers.
"""
