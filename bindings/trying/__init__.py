"""Calls of lattice.h drawn at random, and a model that says what each has to answer."""
