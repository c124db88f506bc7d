"""How many random inputs a check tries: all, or a part of them in `./test quick`."""
import os

PART = 4  # `./test quick` tries one in four


def tried(count: int) -> int:
    """The number of seeds that are tried. If not all are, a line says so."""
    if "QUICK" not in os.environ:
        return count
    print(f"left out: {count - count // PART} of {count} seeds", flush=True)
    return count // PART
