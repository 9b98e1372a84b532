"""Reads the part of antt that the definitions use and writes it as JavaScript."""
