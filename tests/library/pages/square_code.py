"""What a square code says that a page drew, by the reader zbarimg."""
import re
import subprocess
import tempfile

READER = {"zbarimg": "zbar-tools"}
# How many dots of the picture a module is wide.
SCALE = 6


def text_of_code(path, box):
    """What a code says: its squares as the path of an SVG, and the box that it is in."""
    left, top, width, height = (int(side) for side in box.split())
    dark = {(int(column) - left, int(row) - top) for column, row in re.findall(r"M(\d+) (\d+)h1v1h-1z", path)}
    lines = [" ".join(str(int((column, row) in dark)) for column in range(width) for _ in range(SCALE))
             for row in range(height) for _ in range(SCALE)]
    with tempfile.NamedTemporaryFile("w", suffix=".pbm") as it:
        it.write(f"P1\n{width * SCALE} {height * SCALE}\n" + "\n".join(lines) + "\n")
        it.flush()
        ran = subprocess.run(["zbarimg", "-q", "--raw", it.name], capture_output=True, text=True, timeout=30)
    return ran.stdout.rstrip("\n")
