"""Markdown tables, and the observed order of a row of errors."""

from math import log2


def table(heads, rows):
    lines = ["| " + " | ".join(heads) + " |", "|" + "---|" * len(heads)]
    lines += ["| " + " | ".join(row) + " |" for row in rows]
    return "\n".join(lines)


def orders(errors):
    """Between each error and the one before it, the cells being halved; none for the first."""
    return [None] + [log2(a / b) for a, b in zip(errors, errors[1:])]


def overall_order(errors):
    """From the first to the last, the cells being halved each time."""
    return log2(errors[0] / errors[-1]) / (len(errors) - 1)


def order_text(order):
    return "" if order is None else ("%.2f" % order).replace("-", "\u2212")


def count_text(n):
    return format(n, ",")
