"""How the built programs are started and what they print."""

import subprocess
from pathlib import Path

ROOT = Path(__file__).resolve().parent.parent
PATIENCE = 120  # seconds; a program that needs longer has hung


def program(name):
    """The words that start a built program, as a user runs it once it is built."""
    return [str(ROOT / "tests" / "start"), name]


def output(words, data):
    """What the program prints for this input, or a sentence on why there is nothing to compare."""
    try:
        done = subprocess.run(words, input=data, capture_output=True, timeout=PATIENCE)
    except OSError as error:
        return None, f"{words[-1]} cannot be started: {error.strerror}"
    except subprocess.TimeoutExpired:
        return None, f"{words[-1]} did not end within {PATIENCE} seconds"
    if done.returncode:
        return done.stdout, f"{words[-1]} ended with status {done.returncode}"
    return done.stdout, None
