"""Asking the proved monitor: what the stub for GDB and the page share.

`program` runs it over pipes, and `monitor` remembers what it told. `script` takes a script of the workbench apart.
"""
