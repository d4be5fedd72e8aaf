"""Nodes as processes that are killed, a network that loses, and a check of all that they gave out."""
