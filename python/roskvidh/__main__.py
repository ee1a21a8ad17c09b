"""python -m roskvidh: tests the installed package in some seconds."""

import doctest
import random
import sys
from typing import Any, Dict

import roskvidh
from roskvidh import Cedar, CedarMap, Scanner, Store, _core, cedar, files, maps, store, views, words

_CALLS = 20_000


def check_calls(text: bool, reduced: bool) -> None:
    """Makes random calls beside a dict, and compares each answer."""
    chance, made = random.Random(7), Cedar(text=text, reduced=reduced)
    plain: Dict[Any, int] = {}
    for number in range(_CALLS):
        letters = "".join(chance.choices("abß", k=chance.randint(1, 7)))
        key: Any = letters if text else letters.encode()
        if chance.random() < 0.4:
            assert made.pop(key, None) == plain.pop(key, None), key
        else:
            made[key] = plain[key] = number
        other = key[:2]
        assert made.get(other) == plain.get(other) and len(made) == len(plain), key
    assert made == plain and list(made.items()) == sorted(plain.items())
    assert Cedar.load(made.to_bytes(), text=text) == plain
    for prefix in [key[:length] for key in list(plain)[:100] for length in (1, 2, 3)]:
        assert list(made.keys(prefix)) == sorted(key for key in plain if key.startswith(prefix)), prefix
        assert list(made.irange(prefix, prefix + prefix)) == sorted(key for key in plain if prefix <= key < prefix + prefix), prefix


def check_examples() -> int:
    """Runs the examples of the documentation, and returns how many there are."""
    runner = doctest.DocTestRunner()
    names = {"Cedar": Cedar, "CedarMap": CedarMap, "Scanner": Scanner, "Store": Store}
    tests = [test for module in (roskvidh, cedar, files, maps, store, views, words) for test in doctest.DocTestFinder().find(module, extraglobs=names)]
    for kind in (_core.Core, _core.Scanner):
        for name in dir(kind):
            tests += doctest.DocTestFinder(recurse=False).find(getattr(kind, name), f"{kind.__name__}.{name}", module=False, globs=names)
    for test in tests:
        runner.run(test)
    assert runner.failures == 0, f"{runner.failures} examples fail"
    return runner.tries


def main() -> int:
    for text in (False, True):
        for reduced in (False, True):
            check_calls(text, reduced)
    examples = check_examples()
    print(f"roskvidh {roskvidh.__version__}: {4 * _CALLS} calls beside a dict and {examples} lines of examples, all right")
    return 0


if __name__ == "__main__":
    sys.exit(main())
