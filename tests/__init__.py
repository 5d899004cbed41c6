"""The tests, and the package that scripts share (`tests.support`)."""
