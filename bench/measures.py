"""The program that measures, for the scripts beside this file."""
import pathlib
import subprocess

CRATE = pathlib.Path(__file__).resolve().parent.parent / "crates/clay_bench"


def program():
    """Its path. It is proved and built where it has to be."""
    if subprocess.run(["rt", "run"], cwd=CRATE, capture_output=True).returncode != 0:
        raise SystemExit("clay_bench could not be proved and built")
    return CRATE / "out/clay_bench"
