"""Numbers as options and files write them: the ten digits, and nothing that Python takes besides."""
import re

WHOLE = re.compile("[0-9]{1,39}")
FRACTION = re.compile(r"[0-9]{1,39}\.?[0-9]{0,39}|\.[0-9]{1,39}")
# in a line or a table: each digit has one place in the form, so that no way to read many digits is tried twice
NUMBER = re.compile(r"[+-]?([0-9]+(\.[0-9]*)?|\.[0-9]+)([eE][+-]?[0-9]+)?")
