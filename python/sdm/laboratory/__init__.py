"""What the tools of a laboratory share beside the model: journeys as files, runs of the program, rows as text."""
