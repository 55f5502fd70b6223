"""Data races in a program's own terms."""
