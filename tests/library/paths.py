"""The top of the repository, and the program that is driven."""
import os

TOP = os.path.dirname(os.path.dirname(os.path.dirname(os.path.abspath(__file__))))
PROGRAM = os.path.abspath(os.environ.get("PAWND") or os.path.join(TOP, "build/pawnd"))
