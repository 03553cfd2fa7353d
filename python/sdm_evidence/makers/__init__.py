"""Makers of inputs, from a seed: same seed, same bytes. What an input must lead to is said by the model."""
