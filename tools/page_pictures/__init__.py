"""Draws the pictures of docs that are of no run: which crate stands on which, and the way of a node's line."""
