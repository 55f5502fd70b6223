"""Bits that flip in the process that runs Romain itself."""
