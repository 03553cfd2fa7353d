"""What makes vectors/: a module for each group of journeys, over plain.py."""
