"""Runs of the command fildwuk, and what is read back from what it writes."""
