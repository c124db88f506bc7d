"""Compiles the plain Rust programs."""
import os
import subprocess

PLAIN = os.path.join(os.path.dirname(os.path.abspath(__file__)), "plain")


def plain(folder: str, name: str) -> str:
    """Compiles a plain Rust program into a folder, and returns its path."""
    program = os.path.join(folder, name)
    source = os.path.join(PLAIN, name + ".rs")
    # The programs of the repository are compiled for the same processors.
    subprocess.run(["rustc", "-O", "-C", "target-cpu=x86-64-v2", "-o", program, source], check=True)
    return program
