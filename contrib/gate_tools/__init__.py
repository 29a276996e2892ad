"""Tools for who changes the crates: what a gate takes, and wrong bodies that it must refuse."""
