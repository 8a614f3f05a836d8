"""The table of small files and what `norm` makes of each, by topic."""
