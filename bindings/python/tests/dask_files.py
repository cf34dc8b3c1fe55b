"""Files of lines for the tests of kormaglen.dask, and what they hold, worked out by hand."""

from __future__ import annotations

import os
from typing import List, NamedTuple

# A name, an age, a kind and whatever else.
SCHEMA = (
    '[{"name":"name","type":"text","options":{"indexing":{"record":"basic"},"stored":true}},'
    '{"name":"age","type":"u64","options":{"indexed":true,"stored":true}},'
    '{"name":"kind","type":"facet","options":{"stored":true}},'
    '{"name":"more","type":"json_object",'
    '"options":{"indexing":{"record":"basic"},"stored":true,"fast":false}}]'
)

NAMES = ["Ada", "Bob", "Cleo", "Zoë", "棚"]
KINDS = ["/shop", "/shop/light", "/shop/light/led", "/shop/lights", "/garden/chair"]


class Row(NamedTuple):
    """What a line holds. One that is refused has no document."""

    line: str
    is_stored: bool
    name: str
    age: int
    kinds: List[str]


def row(number: int) -> Row:
    """The line of this number, from 1. Each 997th line is refused."""
    name, age = NAMES[number % 5], number % 90
    kinds = [KINDS[number % 5], KINDS[number * number % 5]]
    is_stored = number % 997 != 0
    shown = str(age) if is_stored else '"old"'
    quoted = ",".join(f'"{kind}"' for kind in kinds)
    line = f'{{"name":"{name}","age":{shown},"kind":[{quoted}],"more":{{"size":{number % 7}}}}}'
    return Row(line, is_stored, name, age, kinds)


def write_rows(path: str, count: int) -> List[Row]:
    """Writes the first `count` lines, and returns what they hold."""
    rows = [row(number) for number in range(1, count + 1)]
    with open(path, "w", encoding="utf-8") as file:
        file.writelines(each.line + "\n" for each in rows)
    return rows


def write_bytes(folder: str, name: str, data: bytes) -> str:
    """Writes a file. Returns its path."""
    path = os.path.join(folder, name)
    with open(path, "wb") as file:
        file.write(data)
    return path
