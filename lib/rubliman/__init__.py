"""What stands around the proved workbench: the importer of real programs, and the runtime for C programs."""
