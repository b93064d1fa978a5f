"""Small file systems in memory, to fill or to make read-only."""
import contextlib
import os
import subprocess
import tempfile


@contextlib.contextmanager
def small_disk(size):
    """A folder that is a file system of its own of this size, such as 8m; None if this may not mount one."""
    with tempfile.TemporaryDirectory() as room:
        mount = ["mount", "-t", "tmpfs", "-o", f"size={size}", "none", room]
        if os.geteuid() or subprocess.run(mount, stderr=subprocess.DEVNULL).returncode:
            yield None
            return
        try:
            yield room
        finally:
            subprocess.run(["umount", "-l", room], check=True)
