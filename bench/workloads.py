"""The keys and queries that the subjects are measured on, as files in a folder for each workload.

A file of keys is records: four bytes of length, the lowest first, and the key. All that is chosen at random is chosen from a seed, so that
a workload is the same on each machine. A key's value is its place in sorted order, from 0."""

import gzip
import random
import struct
from pathlib import Path

SEED = 20261125
FILES = ("sorted", "shuffled", "shuffled.values", "hits", "misses", "erasures", "prefixes", "text")


def records(keys):
    return b"".join(struct.pack("<I", len(key)) + key for key in keys)


def shuffled(items, chance):
    items = list(items)
    chance.shuffle(items)
    return items


def absent(keys, chance):
    """Absent keys near held ones: one with another last byte, one with a byte more, and the front of one with the end of another."""
    held, found = set(keys), []
    while len(found) < len(keys):
        one, other = chance.choice(keys), chance.choice(keys)
        made = (one[:-1] + bytes([chance.randrange(1, 256)]), one + other[-1:], one[: len(one) // 2 + 1] + other[len(other) // 2 :])
        found += [key for key in made if key not in held and 0 < len(key) < 1000]
    return found[: len(keys)]


def write(folder, keys, prefix_bytes, most_text):
    """Writes a workload of these keys. `prefix_bytes` says how long the prefixes of predictions are, `most_text` how long the text may be;
    with none the workload is one of growth, and has neither absent keys nor prefixes."""
    chance = random.Random(SEED)
    keys = sorted(set(keys))
    value = {key: place for place, key in enumerate(keys)}
    order = shuffled(keys, chance)
    text = b"".join(key + b" " for key in shuffled(keys, chance))[:most_text] if most_text else b""
    fronts = sorted({key[:prefix_bytes] for key in keys}) if most_text else []
    contents = {
        "sorted": records(keys),
        "shuffled": records(order),
        "shuffled.values": struct.pack(f"<{len(order)}I", *(value[key] for key in order)),
        "hits": records(shuffled(keys, chance)),
        "misses": records(absent(keys, chance) if most_text else []),
        "erasures": records(shuffled(keys, chance) if most_text else []),
        "prefixes": records(shuffled(fronts, chance)),
        "text": text,
    }
    folder.mkdir(parents=True, exist_ok=True)
    for name in FILES:
        (folder / name).write_bytes(contents[name])
    return len(keys)


def random_keys(count, length=8):
    """Keys of so many bytes from 1 to 255: a byte 0 that chance gives is made a 1."""
    chance = random.Random(SEED + count + length)
    drawn = chance.randbytes(count * length).replace(b"\0", b"\1")
    return [drawn[place : place + length] for place in range(0, count * length, length)]


def long_keys(count):
    """Keys of 200 bytes: one of some stems of 100 bytes, a quarter as many as keys, and 100 bytes more."""
    stems = random_keys(max(1, count // 4), 100)
    tails = random_keys(count, 100)
    chance = random.Random(SEED)
    return [chance.choice(stems) + tail for tail in tails]


def made_words(count):
    """Words made of syllables of one to three letters, where no list of real words can be had."""
    chance = random.Random(SEED)
    syllables = [a + b + c for a in "bdfgklmnprstvz" for b in "aeiou" for c in ("", "n", "r", "s", "l")]
    words = set()
    while len(words) < count:
        words.add("".join(chance.choice(syllables) for _ in range(chance.choice((1, 2, 2, 3, 3, 4)))))
    return [word.encode() for word in words]


def words_of(path, count):
    """The first word of each line of a list, or a sample of as many as are wanted."""
    lines = gzip.open(path) if path.suffix == ".gz" else open(path, "rb")
    words = sorted({line.split()[0] for line in lines if line.strip()})
    return words if count is None or count >= len(words) else random.Random(SEED).sample(words, count)


def scripts(folder, short, long):
    """Scripts for the program: a line that stores a new key, and one that looks a stored one up, so many times each."""
    for name, keys in (("script_short", random_keys(short, 5)), ("script_long", long_keys(long))):
        chance = random.Random(SEED)
        keys = list(dict.fromkeys(keys))
        lines = []
        for place, key in enumerate(keys):
            lines.append(f"+ {key.hex()} {place}\n= {keys[chance.randrange(place + 1)].hex()}\n")
        folder.mkdir(parents=True, exist_ok=True)
        Path(folder / name).write_text("".join(lines))
