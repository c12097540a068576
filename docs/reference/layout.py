"""How sources are laid out, for build and count here, which read text by it."""
import re
import sys
from pathlib import Path

TOP = Path(__file__).resolve().parents[2]
sys.dont_write_bytecode = True
sys.path.insert(0, str(TOP / "tools"))
from tree import crates  # noqa: E402, F401

NAME = r"[^\W\d][\w']*"
FUNCTION = re.compile(r"(?P<pub>pub )?(?:const )?(?:unsafe )?(?:extern \"C\" )?fn (?P<name>\w+)")
OWNER = re.compile(r"(?:unsafe )?impl(?:<.*?>)? (?P<of>.* for )?(?P<type>\w+)|(?:pub )?trait (?P<trait>\w+)")
