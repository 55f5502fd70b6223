"""What tables and pictures look like: shares with their intervals, Markdown, matplotlib."""
import math

Z = 1.959964  # of 95 %


def wilson(count, total):
    """The rate and the ends of its 95 % Wilson interval."""
    if total == 0:
        return math.nan, 0.0, 1.0
    rate = count / total
    middle = (rate + Z * Z / (2 * total)) / (1 + Z * Z / total)
    half = Z / (1 + Z * Z / total) * math.sqrt(rate * (1 - rate) / total + Z * Z / (4 * total * total))
    return rate, max(0.0, middle - half), min(1.0, middle + half)


def shown_rate(count, total):
    if total == 0:
        return ""
    rate, low, high = wilson(count, total)
    return f"{100 * rate:.1f} ({100 * low:.1f} to {100 * high:.1f})"


def markdown(heads, lines):
    """A table whose first column is left, the others right."""
    rows = [heads, ["---", *["---:"] * (len(heads) - 1)], *lines]
    return "".join("| " + " | ".join(str(cell) for cell in row) + " |\n" for row in rows) + "\n"


def figure(height, width=8, **more):
    """matplotlib's, drawn without a screen; the same picture gives the same bytes."""
    import matplotlib
    matplotlib.use("Agg")
    matplotlib.rcParams |= {"svg.hashsalt": "campaign", "font.size": 9, "svg.fonttype": "none"}
    from matplotlib import pyplot
    return pyplot.subplots(figsize=(width, height), constrained_layout=True, **more)


def save(drawn, path):
    drawn.savefig(path, metadata={"Date": None} if str(path).endswith(".svg") else None)
