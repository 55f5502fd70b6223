"""Campaigns of faults: programs, what is drawn, how it is run and judged, the rows that are kept, what is told."""
