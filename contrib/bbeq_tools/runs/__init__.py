"""Parts of pairs, and runs of the program on many pairs."""
