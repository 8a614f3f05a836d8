"""The table of requests: what is asked of an archive, row after row, and what each row is answered."""
