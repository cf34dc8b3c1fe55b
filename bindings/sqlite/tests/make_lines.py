"""Prints a schema's JSON on the first line, and COUNT documents of products, each on a line: make_lines.py COUNT. They are always the same."""

import json
import random
import sys
from collections.abc import Callable

SCHEMA = [
    {"name": "name", "type": "text", "options": {"indexing": {"record": "basic"}, "stored": True}},
    {"name": "price", "type": "u64", "options": {"indexed": True, "stored": True}},
    {"name": "change", "type": "i64", "options": {"indexed": True, "stored": True}},
    {"name": "kind", "type": "facet", "options": {"stored": True}},
    {"name": "added", "type": "date", "options": {"indexed": True, "fieldnorms": True, "stored": True}},
    {"name": "sold", "type": "bool", "options": {"indexed": True, "stored": True}},
    {"name": "more", "type": "json_object", "options": {"indexing": {"record": "basic"}, "stored": True, "fast": False}},
]

WORDS = ["lamp", "Lamp", "label", "ladder", "chair", "Stuhl", "étagère", "棚", "table", "tab", "tabla", "10", "7", "a b", ""]
KINDS = ["/shop", "/shop/light", "/shop/light/led", "/shop/lights", "/garden", "/garden/chair", "/garden/chair/wood", "/a\\/b/c", "/"]


def text(random_: random.Random) -> str:
    return " ".join(random_.choice(WORDS) for _ in range(random_.randrange(1, 4)))


def some(random_: random.Random, make: Callable[[], object]) -> object:
    """One value, or a list of none to three."""
    return make() if random_.random() < 0.7 else [make() for _ in range(random_.randrange(4))]


def date(random_: random.Random) -> str:
    day, second = random_.randrange(1, 29), random_.randrange(60)
    return f"20{random_.randrange(10, 26)}-{random_.randrange(1, 13):02}-{day:02}T{random_.randrange(24):02}:30:{second:02}Z"


def leaf(random_: random.Random) -> object:
    return random_.choice([random_.randrange(-50, 50), random_.randrange(10**6), text(random_), True, False])


def more(random_: random.Random) -> dict[str, object]:
    return {
        "size": some(random_, lambda: random_.randrange(-20, 200)),
        "any": leaf(random_),
        "by": {"who": text(random_), "tags": [random_.choice(WORDS) for _ in range(random_.randrange(3))]},
    }


def document(random_: random.Random) -> dict[str, object]:
    values = {
        "name": some(random_, lambda: text(random_)),
        "price": some(random_, lambda: random_.choice([random_.randrange(1000), random_.randrange(2**62)])),
        "change": some(random_, lambda: random_.randrange(-1000, 1000)),
        "kind": some(random_, lambda: random_.choice(KINDS)),
        "added": some(random_, lambda: date(random_)),
        "sold": random_.random() < 0.5,
        "more": more(random_),
    }
    return {name: value for name, value in values.items() if random_.random() < 0.8}


def main() -> None:
    random_ = random.Random(2019)
    print(json.dumps(SCHEMA))
    for _ in range(int(sys.argv[1])):
        print(json.dumps(document(random_), ensure_ascii=False))


if __name__ == "__main__":
    main()
