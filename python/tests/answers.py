"""`python3 -m dcx run answers.py SCRIPT ARGS..` runs a user's script, and prints the ANSWER that it leaves as JSON."""
import json
import os
import runpy
import sys

sys.argv = sys.argv[1:]
sys.path.insert(0, os.path.dirname(os.path.abspath(sys.argv[0])))
left = runpy.run_path(sys.argv[0], run_name="__main__")
print(json.dumps(left["ANSWER"]))
