"""The tests of the built programs, of the library for C and of the packages over it: `python3 -m unittest discover -s tests`."""
