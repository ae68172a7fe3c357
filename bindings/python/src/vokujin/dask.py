"""Maps of many files, made by the workers of Dask's `distributed`: word counts, a prefix index, and a table of routes.

    from distributed import Client
    from vokujin.dask import count_words

    with Client() as client:
        print(count_words(client, ["one.txt", "other.txt"]).result())

Workers read the files, so each needs them under the same names. A part of the work is computed again if its worker dies. No
result depends on the number of workers, or on how the files are divided into parts.
"""

import bisect
import collections
import ipaddress
import itertools
import os
import re
import socket

from dask.sizeof import sizeof

from vokujin import FrozenMap, FrozenStrMap, Map, StrMap

__all__ = ["PrefixIndex", "count_words", "index_lines", "match_addresses", "word_lines"]
# A byte that no word has: zero, or ASCII white space but for the vertical tab.
_GAP = re.compile(rb"[\0\t\n\f\r ]")
_LINE_END = re.compile(rb"\n")
_TO_SPACES = bytes(32 if _GAP.match(bytes([byte])) else byte for byte in range(256))
# How many bytes are read at once to find the end of a word or a line that begins in a part.
_BLOCK = 1 << 12
# How many results are merged by one task, and how many keys of a part are looked at to choose bounds.
_MERGED = 4
_SAMPLE = 200


# The parts of files ---------------------------------------------------------------------------------------------------


def _parts(files, part_bytes):
    """Divides files into parts of at most so many bytes: lists of files with a start and an end. A part may have many files."""
    if part_bytes < 1:
        raise ValueError("a part has one byte or more")
    part, left = [], part_bytes
    for file in files:
        file, size, start = os.path.abspath(file), os.path.getsize(file), 0
        while start < size:
            end = min(size, start + left)
            part.append((file, start, end))
            left -= end - start
            start = end
            if left == 0:
                yield part
                part, left = [], part_bytes
    if part:
        yield part


def _read(file, start, end, gap):
    """Returns the bytes from a start to an end, without the rest of what began before, with the rest of what begins before
    the end and lasts up to a gap, and the place of the first of them."""
    with open(file, "rb") as stream:
        # The byte before tells whether something begins at the start.
        at = max(start - 1, 0)
        stream.seek(at)
        text = stream.read(end - at)
        if start > 0:
            first = gap.search(text)
            skipped = first.end() if first else len(text)
            at, text = at + skipped, text[skipped:]
        texts = [text]
        while texts[-1] and not gap.match(texts[-1], len(texts[-1]) - 1):
            block = stream.read(_BLOCK)
            last = gap.search(block)
            texts.append(block[: last.end()] if last else block)
    return b"".join(texts), at


def _tree(client, merge, futures):
    """Returns a future of all these results, merged by a tree of tasks in their order."""
    while len(futures) > 1:
        groups = (futures[at : at + _MERGED] for at in range(0, len(futures), _MERGED))
        futures = [client.submit(merge, *group, pure=False) for group in groups]
    return futures[0]


@sizeof.register((Map, StrMap, FrozenMap, FrozenStrMap))
def _size(map):
    """How many bytes Dask counts for a map: those of some of its pairs, and what the library needs for each."""
    some = list(itertools.islice(map.items(), 100))
    return 400 + len(map) * (100 + sum(sizeof(key) + sizeof(value) for key, value in some) // max(len(some), 1))


# Counts of words ------------------------------------------------------------------------------------------------------


def count_words(client, files, part_bytes=1 << 24):
    """Returns a future of a Map from each word of the files to how often it occurs in them.

    A word is a longest run of bytes that are neither zero nor ASCII white space (a vertical tab is none here). A file ends a
    word. The parts have so many bytes: each is read and counted by one task, which takes some eight times its bytes.
    """
    counts = [client.submit(_count_part, part, pure=False) for part in _parts(files, part_bytes)]
    return _tree(client, _add_counts, counts or [client.submit(Map, pure=False)])


def _count_part(part):
    counts = collections.Counter()
    for file, start, end in part:
        text, _ = _read(file, start, end, _GAP)
        counts.update(text.translate(_TO_SPACES).split(b" "))
    # Two gaps have nothing between them, which is no word.
    del counts[b""]
    return Map(sorted(counts.items()))


def _add_counts(first, *others):
    counts = first.copy()
    for other in others:
        counts.add_all(other)
    return counts


def word_lines(counts):
    """Returns the bytes that the program word_count writes of these counts: a line of each word, in the order of bytes."""
    return b"".join(b"%d %b\n" % (count, word) for word, count in counts.items())


# A prefix index -------------------------------------------------------------------------------------------------------


def index_lines(client, files, parts=None, part_bytes=1 << 24):
    """Returns a PrefixIndex of the lines of the files. It waits until the lines are read and divided by ranges of keys.

    The index has so many parts, by default one for each thread of the workers, which are about equally large.
    """
    maps = [client.submit(_index_part, part, pure=False) for part in _parts(files, part_bytes)]
    samples = client.gather([client.submit(_some_keys, map, pure=False) for map in maps])
    keys = sorted(itertools.chain(*samples))
    parts = sum(client.ncores().values()) if parts is None else parts
    starts = [b"", *sorted({keys[len(keys) * at // parts] for at in range(1, parts)} - {b""})] if keys else [b""]
    ends = [*starts[1:], None]
    maps = maps or [client.submit(Map, pure=False)]
    pieces = ([client.submit(_between, map, *bounds, pure=False) for map in maps] for bounds in zip(starts, ends))
    found = [client.submit(FrozenMap, _tree(client, _join_places, of_range), pure=False) for of_range in pieces]
    return PrefixIndex(client, starts, found)


class PrefixIndex:
    """Lines of files, and the places of each: a list of pairs of a file and the offset of the line in it.

    The lines are divided by ranges of keys into frozen maps, which stay with the workers. A query goes to the parts that can
    have what it asks for. Dask's `progress` shows how far `parts`, a list of futures, are.
    """

    def __init__(self, client, starts, parts):
        self.client, self.starts, self.parts = client, starts, parts

    def _part_of(self, key):
        return bisect.bisect_right(self.starts, key) - 1

    def _ask(self, places, call, *words):
        asked = [self.client.submit(call, self.parts[place], *words, pure=False) for place in places]
        return self.client.gather(asked)

    def __len__(self):
        """Returns the number of different lines."""
        return sum(self._ask(range(len(self.parts)), len))

    def get(self, line, default=None):
        """Returns the places of a line, or the default if there is none."""
        return self._ask([self._part_of(line)], FrozenMap.get, line, default)[0]

    def prefix(self, prefix):
        """Returns a list of the lines that start with a prefix, in the order of bytes, each with its places."""
        most = prefix.rstrip(b"\xff")
        end = bisect.bisect_left(self.starts, most[:-1] + bytes([most[-1] + 1])) if most else len(self.starts)
        return list(itertools.chain(*self._ask(range(self._part_of(prefix), end), _with_prefix, prefix)))

    def longest_match(self, query):
        """Returns the longest line that is a prefix of the query, with its places, or None."""
        places = {self._part_of(query[:length]) for length in range(len(query) + 1)}
        found = [pair for pair in self._ask(sorted(places), FrozenMap.longest_match, query) if pair]
        return max(found, default=None)


def _index_part(part):
    places = Map()
    for file, start, end in part:
        text, at = _read(file, start, end, _LINE_END)
        for line in text.split(b"\n"):
            if line:
                places.setdefault(line, []).append((file, at))
            at += len(line) + 1
    return places


def _some_keys(map):
    return list(itertools.islice(map, 0, None, len(map) // _SAMPLE + 1))


def _between(map, start, end):
    return Map(map.range(start, end))


def _join_places(first, *others):
    joined = first.copy()
    for other in others:
        for line, places in other.items():
            joined[line] = joined.get(line, []) + places
    return joined


def _with_prefix(part, prefix):
    return list(part.prefix(prefix))


# Routes ---------------------------------------------------------------------------------------------------------------


def match_addresses(client, addresses, routes):
    """Returns a bag that has, for each IP address of a bag of strings, the longest route that covers it and its value, or None.

    The routes are a mapping from networks, as strings, to values. Each worker gets the table of them once. An address that is
    none raises ValueError when the bag is computed.
    """
    table = StrMap()
    for route, value in routes.items():
        table[_bits_of_network(route)] = route, value
    return addresses.map_partitions(_match_part, client.scatter(table.freeze(), broadcast=True))


def _bits_of_network(route):
    network = ipaddress.ip_network(route)
    return _bits_of(network.network_address.packed)[: network.prefixlen + 1]


def _bits_of(packed):
    """The bits of an address as a string, after a letter for its family."""
    return f"{'a' if len(packed) == 4 else 'b'}{int.from_bytes(packed, 'big'):0{len(packed) * 8}b}"


def _packed(address):
    try:
        return socket.inet_pton(socket.AF_INET6 if ":" in address else socket.AF_INET, address)
    except OSError:
        raise ValueError(f"{address!r} is no IP address") from None


def _match_part(addresses, table):
    found = table.longest_match_many(_bits_of(_packed(address)) for address in addresses)
    return [match and match[1] for match in found]
