"""The tests of the module cqdb: `python3 -m unittest discover -s tests -t .` in this folder's parent."""
