"""What a picture of a journey shows, as a script for gnuplot."""
