"""Imports real programs as source texts: linked ELF files, raw images, and sources by the user's cross tools.

`import_file` is all that another program needs. It claims nothing: `Imported.check` has the proved program assemble the
text.
"""
from .imported import Imported, Settings, import_file
from .problem import Problem
from .workbench import Workbench

__all__ = ["Imported", "Problem", "Settings", "Workbench", "import_file"]
