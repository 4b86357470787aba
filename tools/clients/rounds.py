"""What the Python programs here share: doing their calls once, and again after each line of the input."""
import sys


def rounds(calls):
    """Prints after each round `works`, or how it failed."""
    told(calls)
    for _line in sys.stdin:
        told(calls)


def told(calls):
    try:
        calls()
        print("works", flush=True)
    except Exception as error:  # noqa: BLE001 (told)
        print(f"failed: {error!r}", flush=True)
