"""Reads boundaries from the files of other programs, and makes their coordinates whole."""
