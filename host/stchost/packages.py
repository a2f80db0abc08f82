"""Debian's packages that the host stands on, by the modules and commands that they give, and how they are installed."""
import importlib.util
import os
import shutil
import subprocess
import sys
from . import Trouble

MODULES = ("aiohttp", "pymodbus", "serial_asyncio", "prompt_toolkit", "pytest", "selenium")
PACKAGES = {name: f"python3-{name.replace('_', '-')}" for name in MODULES} | {
    "chromium": "chromium", "chromedriver": "chromium-driver", "mbpoll": "mbpoll"}

def missing(*names: str) -> list[str]:
    """Which packages of these modules and commands aren't there."""
    importlib.invalidate_caches()
    return [PACKAGES[name] for name in names if not (importlib.util.find_spec(name) if name in MODULES else shutil.which(name))]

def install(*names: str) -> list[str]:
    """Installs what is missing, as far as that can be. The answer has the packages that are still missing."""
    packages = missing(*names)
    if packages and os.geteuid() == 0 and shutil.which("apt-get"):
        print(f"installing {' '.join(packages)}", file=sys.stderr)
        get = "DEBIAN_FRONTEND=noninteractive apt-get install -y --no-install-recommends"
        each = "; ".join(f"{get} {package}" for package in packages)  # one that can't be had keeps no other back
        script = f"({get} {' '.join(packages)} || {{ apt-get update; {each}; }}) > /dev/null 2>&1"
        subprocess.run(script, shell=True, check=False)
    return missing(*names)

def start(module: str, *names: str) -> None:
    """One of the host's programs. What it stands on is installed before it is read."""
    if lacking := install(*names):
        sys.exit(f"missing: apt-get install {' '.join(lacking)}")
    try:
        sys.exit(importlib.import_module(f"stchost.{module}").main())
    except (Trouble, OSError, subprocess.SubprocessError) as error:
        sys.exit(f"{sys.argv[0]}: {error}")
