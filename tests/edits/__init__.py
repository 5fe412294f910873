"""Wrong bodies that the prover must refuse: what tests/edits.py does."""
