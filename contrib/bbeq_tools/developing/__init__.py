"""Tools of those who change bbeq: drawn texts, refused allocations, believed definitions."""
