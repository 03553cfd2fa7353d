"""`python3 -m sdm_evidence.model run < input`, as tools/model."""
import sys

from sdm_evidence.model.words import main

sys.exit(main(sys.argv[1:]))
