"""Readers of netlists, one module a format, and what they share."""
