"""What `import cvxpy` finds in a script that `python3 -m dcx run` runs, also in processes that such a script starts."""
from dcx.commands.run import round_floats_as_told, stand_in

stand_in()
round_floats_as_told()
