"""The tests of the package. Expected values are worked by hand, from docs/FORMATS.md or the standards, and
never from the library's output."""
