"""What is said in place of a traceback."""


def of_system(error):
    """Of an OSError: the file, where there is one, and the system's reason."""
    reason = error.strerror or str(error)
    return f"{error.filename}: {reason}" if error.filename else reason
