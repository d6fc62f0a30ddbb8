"""A folder that stands on the path of scripts that `python3 -m dcx run` runs: its `cvxpy` is the recorder."""
