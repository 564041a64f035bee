"""The names of the tools, in the order in which a sentence lists them, and the letters that each takes: both are read
from crates/ptopts/src/tool.rt, so that no script lists them."""
import os
import re

SOURCE = os.path.join(os.path.dirname(os.path.dirname(os.path.realpath(__file__))), "crates/ptopts/src/tool.rt")


def read_list():
    with open(SOURCE, encoding="utf-8") as file:
        return re.search(r'^pub const TOOLS: &str = "(.*)";$', file.read(), re.M)[1]


def read_letters(field):
    """For each tool, the letters of one field of its `Syntax`: `flags` or `value_letters`."""
    with open(SOURCE, encoding="utf-8") as file:
        rows = re.findall(rf'^const (\w+): Syntax = Syntax \{{.*?\n    {field}: b"(\w*)",', file.read(), re.M | re.S)
    return {name.lower(): found for name, found in rows}


LISTED = read_list()
NAMES = re.split(", | or ", LISTED)
