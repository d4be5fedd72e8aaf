"""Draws the run of a script as a space-time diagram, from the script and its report."""
