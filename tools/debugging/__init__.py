"""A journal under a debugger: a run is gone through step by step, forwards and backwards."""
