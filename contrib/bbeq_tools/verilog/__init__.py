"""Texts of the language that bbeq reads (docs/LANGUAGE.md)."""
