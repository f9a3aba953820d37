"""The script `marker` at the top of the repository, as the module `marker`: it knows where the proved program is, and which crates
are others than those that were proved."""

from importlib.machinery import SourceFileLoader
from importlib.util import module_from_spec, spec_from_loader
from pathlib import Path

HERE = Path(__file__).resolve().parent.parent

spec = spec_from_loader("marker", SourceFileLoader("marker", str(HERE / "marker")))
marker = module_from_spec(spec)
spec.loader.exec_module(marker)
