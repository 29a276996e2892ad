"""A report of bbeq as one page of HTML (docs/REPORT.md has the lines of a report)."""
