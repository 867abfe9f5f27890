"""The tests of the module: `python3 -m unittest` in this folder. They are skipped without the shared object."""
