#!/usr/bin/env python3
"""Writes texts with the words of their languages: python3 bench/texts.py FOLDER makes FOLDER/chinese, FOLDER/japanese and FOLDER/english,
each with the files `sorted.tsv` (a word, a tab and what it costs, the words ascending by bytes) and `text.txt`, for bench/searches. All is
of Debian's packages, 50 MB of them, which are downloaded into bench/out. A Chinese word costs by jieba's count, a Japanese one what MeCab's
dictionary says, where the least is 0, and an English one by how often it is in the text. A text has each line once, up to 6 MiB."""

import csv
import gzip
import html
import re
import sys
from collections import Counter
from pathlib import Path

import scans
from packages import Packages

BENCH = Path(__file__).resolve().parent
TEXT_BYTES = 6 << 20


def unpacked(package):
    """The folder that has what is in a package."""
    folder = BENCH / "out" / "texts" / package
    if not (folder / "usr").is_dir():
        Packages(folder, False).fetch(package)
    if not (folder / "usr").is_dir():
        sys.exit(f"bench/texts.py: Debian's package {package} can't be had")
    return folder


def chinese_words():
    path = unpacked("python3-jieba") / "usr/lib/python3/dist-packages/jieba/dict.txt"
    lines = (line.split(" ") for line in path.read_text(encoding="utf-8").splitlines())
    return by_count({word: int(count) for word, count, *_ in lines if int(count) > 0})


def japanese_words():
    """Words with the costs of MeCab's dictionary, the least of each word."""
    costs = {}
    for path in sorted((unpacked("mecab-ipadic") / "usr/share/mecab/dic/ipadic").glob("*.csv")):
        with open(path, encoding="euc_jp", newline="") as lines:
            for word, _, _, cost, *_ in csv.reader(lines):
                costs[word] = min(int(cost), costs.get(word, int(cost)))
    least = min(costs.values())
    return {word: cost - least for word, cost in costs.items()}


def english_words(text):
    path = unpacked("wamerican-huge") / "usr/share/dict/american-english-huge"
    found = Counter(re.findall(r"[\w'-]+", text))
    return by_count({word: found[word] + 1 for word in path.read_text(encoding="utf-8").splitlines()})


def by_count(counts):
    total = sum(counts.values())
    return {word: scans.cost_of(count, total) for word, count in counts.items()}


def plain(text):
    return re.sub(r"\x1b\[[0-9;]*m", "", text)


def without_tags(text):
    return html.unescape(re.sub(r"<[^>]*>", "", re.sub(r"(?s)<(script|style|head)\b.*?</\1>", "", text)))


def without_requests(text):
    """The text of a manual page, without the most of roff's requests."""
    text = re.sub(r"""(?m)^[.']\\\".*$""", "", text)
    text = re.sub(r"(?m)^[.'][A-Za-z]{1,4} ?", "", text)
    return re.sub(r"\\f.|\\[&|]", "", text).replace("\\-", "-")


# Of each text the packages, which files of them, and what their lines are read by.
CHINESE = (
    ("fortunes-zh", ("chinese", "song100", "tang300"), plain),
    ("debian-reference-zh-cn", (".txt.gz",), plain),
    ("maint-guide-zh-cn", (".txt.gz",), plain),
    ("libreoffice-help-zh-cn", (".html",), without_tags),
    ("manpages-zh", (".gz",), without_requests),
)
JAPANESE = (
    ("debian-reference-ja", (".txt.gz",), plain),
    ("maint-guide-ja", (".txt.gz",), plain),
    ("libreoffice-help-ja", (".html",), without_tags),
    ("manpages-ja", (".gz",), without_requests),
)
ENGLISH = (
    ("debian-reference-en", (".txt.gz",), plain),
    ("libreoffice-help-en-us", (".html",), without_tags),
    ("manpages", (".gz",), without_requests),
)


def files_of(folder, endings):
    """The files of a package that are text, but for those about the package."""
    for path in sorted(folder.rglob("*")):
        if path.name.endswith(endings) and path.is_file() and not path.is_symlink() and not path.name.startswith("changelog"):
            yield path


def text_of(sources):
    """The lines of all sources, each once, up to the limit."""
    seen, size = {}, 0
    for package, endings, reader in sources:
        for path in files_of(unpacked(package), endings):
            contents = path.read_bytes()
            contents = gzip.decompress(contents) if path.suffix == ".gz" else contents
            for line in reader(contents.decode(errors="ignore")).splitlines():
                line = line.strip().replace("\0", "")
                if line and line not in seen:
                    seen[line] = None
                    size += len(line.encode()) + 1
                    if size > TEXT_BYTES:
                        return "\n".join(seen) + "\n"
    return "\n".join(seen) + "\n"


def write(folder, words, text):
    folder.mkdir(parents=True, exist_ok=True)
    lines = sorted((word.encode(), cost) for word, cost in words.items() if word and not set(word) & set("\t\n\r\0"))
    (folder / "sorted.tsv").write_bytes(b"".join(b"%s\t%d\n" % line for line in lines))
    (folder / "text.txt").write_text(text, encoding="utf-8")
    print(f"{folder}: {len(lines):,} words, {len(text.encode()):,} bytes of text", file=sys.stderr)


def write_all(folder):
    write(folder / "chinese", chinese_words(), text_of(CHINESE))
    write(folder / "japanese", japanese_words(), text_of(JAPANESE))
    english = text_of(ENGLISH)
    write(folder / "english", english_words(english), english)


if __name__ == "__main__":
    write_all(Path(sys.argv[1]))
