"""Programs that scripts need beside the one that is tried, and the packages of Debian that they come in."""
import contextlib
import os
import shutil
import subprocess

from tests.library.checks import main, not_tried

# What building the pages needs, each program or file with its package.
BUILDING = {"esbuild": "esbuild", "/usr/share/nodejs/qrcode-generator/qrcode.js": "node-qrcode-generator"}
# What the scripts of the pages need.
PACKAGES = {"nginx": "nginx-light", "chromium": "chromium", "chromedriver": "chromium-driver", **BUILDING}
PATHS = os.environ.get("PATH", "") + ":/usr/sbin"


def is_here(name):
    return os.path.exists(name) if os.path.isabs(name) else shutil.which(name, path=PATHS) is not None


def missing(packages=PACKAGES):
    return [name for name in packages if not is_here(name)]


def provide(packages=PACKAGES):
    """Installs the packages of what is missing, if this is root on a Debian; returns what is missing then."""
    if missing(packages) and os.geteuid() == 0 and shutil.which("apt-get"):
        # The run level keeps the package of nginx from starting a server of its own.
        quiet = {**os.environ, "DEBIAN_FRONTEND": "noninteractive", "RUNLEVEL": "1"}
        for words in (
            ["update"], ["install", "-y", "--no-install-recommends", *(packages[name] for name in missing(packages))],
        ):
            with contextlib.suppress(subprocess.SubprocessError):
                subprocess.run(
                    ["apt-get", *words], env=quiet, stdin=subprocess.DEVNULL, stdout=subprocess.DEVNULL,
                    stderr=subprocess.DEVNULL, timeout=300,
                )
    return missing(packages)


def main_with(packages, *tests):
    """Runs a script's tests if what they need is here or can be installed, and else says what is not."""
    if provide(packages):
        not_tried("all of it", f"there is no {' and no '.join(missing(packages))}")
        main()
    main(*tests)
