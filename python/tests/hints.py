"""What mypy has to accept: the hints of a program's own variables. What it has to refuse is marked with the kind of its error, and mypy says
of a mark that it isn't needed, if it accepts the line. Nothing here is run."""

from typing import Any, Dict, Iterator, List, Mapping, MutableMapping, Optional, Tuple

from roskvidh import Cedar, CedarError, CedarMap, Found, Match, Matches, Scanner, Stats, Store


def keys_are_bytes(data: bytes) -> None:
    d: Cedar[bytes] = Cedar({b"net": 7})
    loaded: Cedar[bytes] = Cedar.load(data)
    built: Cedar[bytes] = Cedar.from_sorted([(b"net", 7)], reduced=True)
    value: Optional[int] = d.get(b"x")
    matches: Matches = d.scan(b"text")
    keywords: Matches = d.keywords(b"text")
    cut: Matches = d.cheapest(b"text", unknown=5)
    cut = d.cheapest(b"text", 5, costs=[1, 2])
    cut = d.cheapest(b"text", unknown=5, costs={7: 1})
    scanner: Scanner[bytes] = Scanner(d, search="leftmost-longest")
    matches = scanner.find(b"text")
    match: Match = matches[0]
    some: List[Match] = matches[1:]
    stats: Stats = d.stats()
    as_mapping: MutableMapping[bytes, int] = d
    erased: int = loaded.erase_all([b"x", b"y"]) + loaded.erase_all(d)
    loaded |= built
    print(erased, value, match.value, some, keywords, cut, stats.keys, as_mapping, scanner.search, scanner.text)


def keys_are_texts(path: str, plain: Dict[str, int]) -> None:
    d: Cedar[str] = Cedar(plain, text=True)
    loaded: Cedar[str] = Cedar.load(path, text=True, memory_limit=1000)
    built: Cedar[str] = Cedar.from_sorted(plain, text=True)
    value: int = d["net"] + d.pop("x", 5) + d.setdefault("y", 6)
    between: Iterator[str] = d.irange("a", "b", inclusive=(False, True), reverse=True)
    best: List[Tuple[str, int]] = d.best("n", 3, lowest=True)
    beside: List[Optional[Tuple[str, int]]] = [d.floor("n"), d.ceiling("n")]
    near: List[Tuple[str, int]] = [*d.within("net", 2, beginning=True), *d.matching("n?t*")]
    print(best, beside, near)
    fronts: List[Tuple[str, int]] = d.prefixes("network")
    longest: Optional[Tuple[str, int]] = d.longest_prefix("network")
    both: Cedar[str] = d | plain | loaded | built.copy()
    for key, number in both.items("n"):
        print(key.upper(), number + value)
    with Cedar(text=True) as opened:
        opened["a"] = 1
    print(between, fronts, longest)


def stores(path: str) -> None:
    with Store(path, text=True, mode="w", sync_every=10) as store:
        with store.batch():
            store["net"] = 7
            pair: Tuple[str, int] = store.popitem()
        store.compaction = None
        store.compact()
        beyond: Optional[Tuple[int, int]] = store.compaction
        print(pair, beyond, store.file_size + store.compacted_size() + store.last_compaction + store.records, store.mode)
    reader: Store[bytes] = Store(path, mode="r")
    found: int = reader[b"net"]
    print(found)


class Words(Cedar[str]):
    def longest(self) -> int:
        return max(map(len, self))


class Codes(Cedar[bytes]):
    def lowest(self) -> int:
        return min(self.values())


def subclasses(path: str) -> None:
    words = Words.load(path, text=True)
    codes = Codes.load(path)
    print(words.longest(), codes.lowest(), Words.from_sorted({"net": 7}, text=True).longest(), Codes.from_sorted({b"net": 7}).lowest())
    print(words.copy().longest(), (words | {"ten": 9}).longest())
    plain = Cedar.load(path)
    texts = Cedar.load(path, text=True)
    plain["net"] = 7  # type: ignore[index]
    texts[b"net"] = 7  # type: ignore[index]
    plain.lowest()  # type: ignore[attr-defined]


def views_have_types(d: Cedar[str], routes: CedarMap[str, List[str]], store: Store[bytes]) -> None:
    for key, value in d.items("n"):
        value.upper()  # type: ignore[attr-defined]
        key + 1  # type: ignore[operator]
    for key in d.keys("n"):
        key.decode()  # type: ignore[attr-defined]
    for value in d.values("n"):
        value.upper()  # type: ignore[attr-defined]
    for code, number in store.items():
        code.encode()  # type: ignore[attr-defined]
        number.upper()  # type: ignore[attr-defined]
    for route, names in routes.items("/"):
        route.decode()  # type: ignore[attr-defined]
        names.upper()  # type: ignore[attr-defined]
    for names in routes.values("/"):
        names.upper()  # type: ignore[attr-defined]
    routes.get("/").sort()  # type: ignore[union-attr]
    routes.pop("/").upper()  # type: ignore[attr-defined]
    routes.setdefault("/", []).upper()  # type: ignore[attr-defined]
    held: Optional[List[str]] = routes.get("/")
    print(held, routes.get("/", 5), routes.pop("/", None), routes.setdefault("/", ["home"])[0].upper())


def matches_are_tuples(d: Cedar[str]) -> None:
    match: Match = d.scan("network")[0]
    place, length, value = match
    first: int = match[0]
    as_tuple: Tuple[int, int, Optional[int]] = match
    other: object = 7
    held: bool = other in d or other in d.keys("n")
    print(place + length + first + match.place + match.n_fields, value, as_tuple, held)


def values_of_any_type() -> None:
    routes: CedarMap[str, List[str]] = CedarMap({"/": ["home"]}, text=True)
    numbers: CedarMap[bytes, Optional[float]] = CedarMap()
    numbers[b"half"] = 0.5
    routes.update({"/users": []})
    longest: Optional[Tuple[str, List[str]]] = routes.longest_prefix("/users?page=2")
    found: List[Found] = list(routes.scan("/users"))
    pairs: List[Tuple[str, List[str]]] = list(routes.items("/u"))
    lists: List[List[str]] = list(routes.copy().values())
    as_mapping: MutableMapping[bytes, Optional[float]] = numbers
    print(longest, found[0].value, pairs, lists, as_mapping, routes["/"][0].upper(), next(routes.irange("/u")))


def either(is_text: bool, given: Mapping[Any, int]) -> Cedar[Any]:
    try:
        return Cedar(given, text=is_text)
    except CedarError as error:
        raise SystemExit(error.status) from error
