"""Scripts between bbeq and RTL, simulators, other checkers and editors (contrib/README.md)."""
