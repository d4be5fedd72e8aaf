"""The rules of scripts and reports, written apart from the library: which report a script's must be."""
