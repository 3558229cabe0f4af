"""The cases of vectors/: their inputs, the sources of these, and the expected answers.

Inputs are stored rows of crates/rows_*, and values that are made here. The expected answers are those of the rows and
of tests/reference, which have to agree. tests/run/source_vectors.py writes the files.
"""
