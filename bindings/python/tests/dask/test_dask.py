"""The calls over Dask: beside what the program word_count writes, a sorted list of all lines, and a scan of all routes."""

import bisect
import collections
import ipaddress
import os
import pathlib
import random
import re
import signal
import subprocess
import sys
import tempfile
import time
import unittest

# What workers say of the one that is killed, and of addresses that are none.
os.environ["DASK_LOGGING__DISTRIBUTED"] = "critical"

import dask.bag
from dask.sizeof import sizeof
from distributed import Client, LocalCluster

from vokujin import Map
from vokujin.dask import PrefixIndex, _parts, count_words, index_lines, match_addresses, word_lines

PROJECT = pathlib.Path(__file__).resolve().parents[4]
# What the program reads and writes.
READ, WRITTEN = ((PROJECT / "crates/word_count" / name).read_bytes() for name in ("stdin", "stdout"))
EXAMPLES = PROJECT / "bindings/python/examples"
PAGE = (PROJECT / "bindings/DASK.md").read_text()


def cluster_of(workers):
    return LocalCluster(n_workers=workers, threads_per_worker=1, dashboard_address=":0")


class Files(unittest.TestCase):
    def setUp(self):
        folder = tempfile.TemporaryDirectory()
        self.addCleanup(folder.cleanup)
        self.folder = pathlib.Path(folder.name)

    def file(self, text):
        file = self.folder / str(len(list(self.folder.iterdir())))
        file.write_bytes(text)
        return str(file)

    def cut(self, text, count):
        """Files that have the text together: each ends where a line does."""
        lines = text.splitlines(keepends=True)
        return [self.file(b"".join(lines[len(lines) * at // count : len(lines) * (at + 1) // count])) for at in range(count)]


class Here:
    """A client that computes each task where it is called."""

    def submit(self, call, *arguments, pure):
        return call(*arguments)

    def gather(self, results):
        return results

    def ncores(self):
        return {"here": 3}


class Parts(Files):
    def test_parts_have_each_byte_once(self):
        files = [self.file(b"x" * size) for size in (0, 1, 10, 100, 7, 0)]
        for part_bytes in 1, 2, 3, 9, 10, 11, 50, 118, 1000:
            parts = list(_parts(files, part_bytes))
            sizes = [sum(end - start for _, start, end in part) for part in parts]
            self.assertEqual(sizes, [part_bytes] * (118 // part_bytes) + ([118 % part_bytes] if 118 % part_bytes else []))
            self.assertEqual([(file, at) for part in parts for file, start, end in part for at in range(start, end)], [(file, at) for file in files for at in range(os.path.getsize(file))])
        self.assertEqual(list(_parts([], 1)), [])
        self.assertRaises(ValueError, list, _parts(files, 0))
        self.assertRaises(FileNotFoundError, list, _parts([self.folder / "none"], 1))

    def test_counts_are_those_of_the_program(self):
        for part_bytes in 1, 2, 3, 7, 64, 1000, 1 << 24:
            for files in 1, 2, 5:
                self.assertEqual(word_lines(count_words(Here(), self.cut(READ, files), part_bytes)), WRITTEN)

    def test_words_end_at_the_gaps_that_the_program_knows(self):
        # A vertical tab and other bytes are no gaps. A file ends a word.
        texts = [b"a\0b\tc\nd\fe\rf g\vh\x85\xff\xa0i", b"a", b"a a", b" ", b"", b"b" * 10_000 + b" b"]
        wanted = {b"a": 4, b"b": 2, b"c": 1, b"d": 1, b"e": 1, b"f": 1, b"g\vh\x85\xff\xa0i": 1, b"b" * 10_000: 1}
        files = [self.file(text) for text in texts]
        for part_bytes in 1, 5, 4096, 1 << 24:
            self.assertEqual(count_words(Here(), files, part_bytes), wanted)
        self.assertEqual((count_words(Here(), []), word_lines(Map())), (Map(), b""))

    def test_indexes_have_each_line(self):
        random.seed(5)
        texts = [b"\n".join(bytes(random.choices(b"ab\0/", k=random.randrange(9))) for _ in range(40)) for _ in range(4)] + [b"\n\n", b"", b"a\n" * 9, b"c" * 9000]
        files = [self.file(text) for text in texts]
        wanted = collections.defaultdict(list)
        for file, text in zip(files, texts):
            for line in re.finditer(rb"[^\n]+", text):
                wanted[line[0]].append((file, line.start()))
        for part_bytes, parts in (1, 7), (6, 1), (6, 50), (100, 2), (1 << 24, None):
            self.answers_as(index_lines(Here(), files, parts, part_bytes), wanted)
        self.answers_as(index_lines(Here(), []), {})
        self.answers_as(index_lines(Here(), [files[0]], 100), {line: [place for place in places if place[0] == files[0]] for line, places in wanted.items() if files[0] in dict(places)})

    def answers_as(self, index, wanted):
        self.assertEqual(len(index), len(wanted))
        self.assertEqual(index.prefix(b""), sorted(wanted.items()))
        for query in {it[:length] for it in (*list(wanted)[:20], b"c" * 9000, b"zz", b"\xff" * 3) for length in (1, 2, 3, 4, len(it))}:
            self.assertEqual((index.get(query), index.get(query, 0)), (wanted.get(query), wanted.get(query, 0)))
            self.assertEqual(index.prefix(query), sorted(pair for pair in wanted.items() if pair[0].startswith(query)))
            longest = max((pair for pair in wanted.items() if query.startswith(pair[0])), default=None)
            self.assertEqual(index.longest_match(query), longest)

    def test_a_query_goes_to_the_parts_that_can_have_it(self):
        asked = []

        class Noting(Here):
            def submit(self, call, *arguments, pure):
                asked.append(arguments[0])
                return call(*arguments)

        starts = [b"", b"b", b"ba", b"bc", b"c", b"\xff", b"\xff\xff\1"]
        parts = [Map({start or b"a": [start]}).freeze() for start in starts]
        index = PrefixIndex(Noting(), starts, parts)
        for query, wanted in {b"": [0, 1, 2, 3, 4, 5, 6], b"a": [0], b"b": [1, 2, 3], b"ba": [2], b"bb": [2], b"c": [4], b"d": [4], b"b\xff": [3], b"\xff\xff": [5, 6]}.items():
            asked.clear()
            index.prefix(query)
            self.assertEqual([parts.index(it) for it in asked], wanted, query)
        for query, wanted in {b"": [0], b"a": [0], b"ba": [0, 1, 2], b"bad": [0, 1, 2], b"bcd": [0, 1, 3], b"zz": [0, 4]}.items():
            asked.clear()
            index.longest_match(query)
            self.assertEqual([parts.index(it) for it in asked], wanted, query)


class Workers(Files):
    """Four processes."""

    @classmethod
    def setUpClass(cls):
        cls.cluster = cluster_of(4)
        cls.client = Client(cls.cluster)
        cls.addClassCleanup(cls.cluster.close)
        cls.addClassCleanup(cls.client.close)

    def test_counts_do_not_depend_on_workers_and_parts(self):
        files = self.cut(READ, 7)
        for part_bytes in 200, 3000, 1 << 24:
            self.assertEqual(word_lines(count_words(self.client, files, part_bytes).result()), WRITTEN)
        with cluster_of(1) as cluster, Client(cluster) as client:
            self.assertEqual(word_lines(count_words(client, files, 3000).result()), WRITTEN)

    def test_a_worker_that_is_killed_while_it_works(self):
        files = [self.file(READ) for _ in range(20)]
        counts = {line.split()[1]: 20 * 30 * int(line.split()[0]) for line in WRITTEN.splitlines()}
        pids = self.client.run(os.getpid)
        victim, pid = next(iter(pids.items()))
        found = count_words(self.client, files * 30, 20_000)
        end = time.monotonic() + 30
        # It has results, and is to compute more.
        while not (self.client.has_what()[victim] and self.client.processing()[victim]):
            self.assertLess(time.monotonic(), end)
        self.assertFalse(found.done())
        os.kill(pid, signal.SIGKILL)
        self.assertEqual(dict(found.result()), counts)
        self.assertNotIn(victim, self.client.has_what())
        self.client.wait_for_workers(4, 30)

    def test_an_index(self):
        files = self.cut(READ, 3)
        index = index_lines(self.client, files, part_bytes=2000)
        lines = sorted({line for line in READ.split(b"\n") if line})
        self.assertEqual((len(index), len(index.parts)), (len(lines), 4))
        self.assertEqual([line for line, _ in index.prefix(b"")], lines)
        for line, places in index.prefix(b"      th"):
            for file, at in places:
                self.assertTrue(pathlib.Path(file).read_bytes()[at:].startswith(line + b"\n"))
        at = bisect.bisect(lines, b"      th")
        self.assertTrue(index.prefix(b"      th")[0][0] == lines[at] and lines[at].startswith(b"      th"))

    def test_addresses(self):
        random.seed(6)
        routes = {str(ipaddress.ip_network((random.getrandbits(32), length), strict=False)): length for length in random.choices(range(4, 33), k=100)}
        routes |= {str(ipaddress.ip_network((random.getrandbits(128), length), strict=False)): length for length in random.choices(range(4, 129), k=100)}
        routes["10.1.2.3/32"], routes["10.1.0.0/16"], routes["2001:db8::/32"] = "host", "net", None
        addresses = ["10.1.2.3", "10.1.2.4", "2001:db8::1", "::", "255.255.255.255"]
        addresses += [str(ipaddress.ip_address(random.getrandbits(32))) for _ in range(100)] + [str(ipaddress.ip_address(random.getrandbits(128))) for _ in range(100)]
        networks = sorted((ipaddress.ip_network(route).prefixlen, route) for route in routes)

        def longest(address):
            covering = [route for _, route in networks if ipaddress.ip_address(address) in ipaddress.ip_network(route)]
            return (covering[-1], routes[covering[-1]]) if covering else None

        wanted = [longest(address) for address in addresses]
        self.assertIn(None, wanted)
        for parts in 1, 3, 50:
            bag = dask.bag.from_sequence(addresses, npartitions=parts)
            self.assertEqual(match_addresses(self.client, bag, routes).compute(), wanted)
        with self.assertRaises(ValueError) as raised:
            match_addresses(self.client, dask.bag.from_sequence(["10.1.2.3", "10.1.2"]), routes).compute()
        self.assertEqual(raised.exception.args, ("'10.1.2' is no IP address",))
        for wrong in {"10.1.2.3/8": 1}, {"10": 1}:
            self.assertRaises(ValueError, match_addresses, self.client, bag, wrong)

    def test_the_examples(self):
        routes = self.file(b"10.0.0.0/8 ten\n10.1.0.0/16 ten and one\n2001:db8::/32 texts\n")
        addresses = self.file(b"10.1.9.9\n10.2.0.1\n11.0.0.1\n2001:db8::5\n")
        one, other = self.file(b"/etc/hosts\n/etc/host.conf\n/usr\n"), self.file(b"/usr/bin\n/etc/hosts\n")
        for words, wanted in (
            (["count_words.py", *self.cut(READ, 2)], WRITTEN.decode()),
            (["index_lines.py", "/etc/host", one, other], f"/etc/host.conf: {one} at 11\n/etc/hosts: {one} at 0, {other} at 9\n"),
            (["match_addresses.py", routes, addresses], "ten and one\nten\n-\ntexts\n"),
        ):
            self.prints([EXAMPLES / words[0], *words[1:]], wanted)

    def test_the_program_of_the_page(self):
        (self.folder / "one.txt").write_text("to be or")
        (self.folder / "other.txt").write_text("not to be")
        program, printed = re.search(r"```python\n(.*?)```\n\nIt prints (.*?) of files", PAGE, re.S).groups()
        self.prints(["-c", program], "".join(f"{line}\n" for line in re.findall("`(.*?)`", printed)))

    def prints(self, words, wanted):
        environment = os.environ | {"DASK_SCHEDULER_ADDRESS": self.cluster.scheduler_address}
        ran = subprocess.run([sys.executable, *words], cwd=self.folder, env=environment, capture_output=True, text=True)
        self.assertEqual((ran.returncode, ran.stdout), (0, wanted), ran.stderr)


class Sizes(unittest.TestCase):
    def test_dask_counts_what_a_map_has(self):
        here = Map((b"%d" % number, number) for number in range(1000))
        self.assertTrue(100_000 < sizeof(here) == sizeof(here.freeze()) < 200_000)
        self.assertLess(sizeof(Map()), 1000)


if __name__ == "__main__":
    unittest.main()
