"""Calls a program as a user does, and knows the calls that are stored and what is wrong with a script."""
