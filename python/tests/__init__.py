"""The tests, by the standard library's unittest."""
