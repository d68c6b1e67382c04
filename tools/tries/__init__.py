"""What `try.py` tries of the tools, a file for each."""
