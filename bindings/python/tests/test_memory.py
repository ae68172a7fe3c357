"""References, the garbage collector, ends of values that change a map, threads, and allocations that fail."""

import contextlib
import copy
import gc
import pathlib
import random
import resource
import subprocess
import sys
import threading
import unittest
import weakref

from vokujin import Map, StrMap

# Inserts keys of a kilobyte into a map until there is no memory for another one, and prints whether all are there then.
FILL = """
import resource
from vokujin import Map
here, count = Map(), 0
most = resource.getrlimit(resource.RLIMIT_AS)[1]
resource.setrlimit(resource.RLIMIT_AS, (400 << 20, most))
try:
    while True:
        here[b"%01000d" % count] = None
        count += 1
except MemoryError:
    resource.setrlimit(resource.RLIMIT_AS, (most, most))
    here.pop(b"%01000d" % 7)
    print(count > 10_000 and len(here) == count - 1 == sum(1 for _ in here) and here.remove_prefix(b"%0998d" % 1) == 100)
"""


class Object:
    """A value that can be referred to weakly, and may refer to others."""


class AtEnd:
    """A value whose end makes a call."""

    def __init__(self, call):
        self.call = call

    def __del__(self):
        self.call()


class References(unittest.TestCase):
    def setUp(self):
        self.map, self.value = Map(), Object()
        self.count = sys.getrefcount(self.value)

    def refers(self, count):
        self.assertEqual(sys.getrefcount(self.value) - self.count, count)

    def test_each_pair_has_one_reference(self):
        for number in range(100):
            self.map[b"%d" % number] = self.value
            self.refers(number + 1)
        self.map[b"7"] = self.value
        self.refers(100)
        for call in Map.get, Map.__getitem__, Map.setdefault, Map.longest_match, Map.matches:
            call(self.map, b"7")
            self.refers(100)

    def test_removed_pairs_have_none(self):
        removals = [
            lambda: self.map.pop(b"7"),
            lambda: self.map.__delitem__(b"7"),
            lambda: self.map.__setitem__(b"7", None),
            lambda: self.map.popitem(),
            lambda: self.map.popitem(last=False),
            lambda: self.map.remove_prefix(b""),
            lambda: self.map.clear(),
            lambda: self.map.update({b"7": None}),
            lambda: self.__delattr__("map"),
        ]
        for removal in removals:
            self.map[b"7"] = self.value
            self.refers(1)
            removal()
            self.refers(0)

    def test_copies_and_iterations(self):
        self.map.update({b"%d" % number: self.value for number in range(100)})
        other = self.map.copy()
        self.refers(200)
        pairs = other.items().__iter__()
        for _ in range(60):
            next(pairs)
        self.refers(200)
        del other, pairs
        self.refers(100)

    def test_pairs_of_lists_and_maps(self):
        pairs = [(b"%03d" % number, self.value) for number in range(100)]
        self.refers(100)
        for source in pairs, Map(pairs), Map(pairs).freeze(), pairs[50:] + pairs[:60], [*pairs, (b"x", self.value, 1)], [*pairs, (None, self.value)]:
            before = sys.getrefcount(self.value)
            with contextlib.suppress(TypeError, ValueError):
                Map(source)
            self.assertEqual(sys.getrefcount(self.value), before)

    def test_calls_that_fail(self):
        for key in 1, "text":
            with self.assertRaises(TypeError):
                self.map[key] = self.value
            with self.assertRaises(TypeError):
                self.map.setdefault(key, self.value)
        self.map[b"a"] = 1
        with self.assertRaises(TypeError):
            self.map.add(b"a", self.value)
        self.refers(0)

    def test_a_key_is_not_kept(self):
        for here, key in (self.map, b"key of bytes"[1:]), (StrMap(), "key of text, é"[1:]):
            count = sys.getrefcount(key)
            here[key] = here.setdefault(key, key and 1)
            here.add(key), here.get(key), here.matches(key), here.count_prefix(key), list(here.prefix(key)), here.pop(key)
            self.assertEqual(sys.getrefcount(key), count)

    def test_types_are_referred_to_by_what_there_is(self):
        types = Map, StrMap, type(iter(self.map))
        counts = [sys.getrefcount(it) for it in types]
        for _ in range(100):
            iter(Map()), iter(StrMap())
        self.assertEqual([sys.getrefcount(it) for it in types], counts)

    def test_a_dropped_map_is_freed(self):
        pages = []
        for turn in range(60):
            Map((b"%01000d" % number, None) for number in range(1000))
            if turn in (9, 59):
                pages.append(int(pathlib.Path("/proc/self/statm").read_text().split()[1]))
        self.assertLess((pages[1] - pages[0]) * resource.getpagesize(), 10 << 20)  # the maps had 50 MB

    def test_no_call_leaks(self):
        def calls(kind, key):
            here = kind([(key, Object()), (key * 2, 1 << 100)])
            for _ in range(3):
                here[key], here[key * 3] = Object(), here
                here.get(key), here.setdefault(key), here.setdefault(key * 4, []), here.add(key * 2), here.add(key * 5)
                here.first(), here.last(), here.popitem(), here.matches(key * 9), here.longest_match(key * 9), here.count_prefix(key)
                list(here.items()), list(reversed(here.values())), list(here.prefix(key)), list(here.irange(key)), next(iter(here))
                here | {}, here == here.copy(), repr(here), here.compact(), here.__reduce__(), here.remove_prefix(key * 4)
                with contextlib.suppress(KeyError):
                    del here[key * 7]
                with contextlib.suppress(TypeError):
                    here[None] = 1
                here.add_all({key * 2: 1, key * 5: 2})
                kind([(key, here), (key * 2, []), (key, 1)]), kind(here.copy().freeze())
            frozen = here.freeze()
            frozen.get_many([key, key * 2], []), frozen.longest_match_many([key * 9, key[:0]]), frozen.matches(key * 3)
            frozen.count_prefix(key), frozen.first(), list(frozen.items()), copy.deepcopy(frozen), frozen.get(key)
            for call in frozen.get_many, frozen.count_prefix, type(here)()._freeze:
                with contextlib.suppress(TypeError):
                    call([key, None])

        def blocks(turns):
            for _ in range(turns):
                calls(Map, b"key")
                calls(StrMap, "schlüssel")
            gc.collect()
            # A debug build counts all references, too.
            return sys.getallocatedblocks(), getattr(sys, "gettotalrefcount", int)()

        blocks(20)
        before = blocks(20)
        after = blocks(500)
        for least, most in zip(before, after):
            self.assertLess(most - least, 200)


class Collections(unittest.TestCase):
    def is_collected(self, made):
        gc.disable()
        kept = weakref.ref(made())
        self.assertIsNotNone(kept())
        gc.enable()
        gc.collect()
        self.assertIsNone(kept())

    def test_values_that_refer_to_their_map(self):
        def itself():
            here = Map()
            here[b"me"] = here
            return here

        def another():
            here, there = Map(), StrMap()
            here[b"there"], there["here"] = there, here
            return here

        def an_object():
            here, value = StrMap(), Object()
            here["value"], value.map = [value], here
            return here

        def an_iteration():
            here = Map({b"a": 1, b"b": 2})
            here[b"a"] = iter(here.items())
            next(here[b"a"])
            return here

        def a_view():
            here = Map()
            here[b"keys"] = here.keys()
            return here

        for made in itself, another, an_object, an_iteration, a_view:
            with self.subTest(made.__name__):
                self.is_collected(made)

    def test_the_collector_sees_all_values(self):
        values = [Object() for _ in range(100)]
        here = Map((b"%d" % at, value) for at, value in enumerate(values))
        for at in range(0, 100, 3):
            del here[b"%d" % at]
        left = [value for at, value in enumerate(values) if at % 3]
        self.assertEqual({id(it) for it in gc.get_referents(here)} - {id(Map)}, {id(it) for it in left})
        self.assertTrue(gc.is_tracked(here))

    def test_deep_maps_are_dropped(self):
        here = Map()
        for _ in range(200_000):
            here = Map({b"below": here})
        del here
        gc.collect()

    def test_a_map_can_be_used_at_the_end_of_its_values(self):
        seen = []
        here = StrMap(a=1)
        here["end"] = AtEnd(lambda here=here: seen.append(here.get("a")))
        del here
        gc.collect()
        self.assertEqual(len(seen), 1)


class Ends(unittest.TestCase):
    def test_the_end_of_a_value_sees_the_map_after_the_call(self):
        here, seen = StrMap(), []
        see = lambda: seen.append(dict(here))
        here["a"], here["b"] = AtEnd(see), 2
        here["a"] = 1
        self.assertEqual(seen.pop(), {"a": 1, "b": 2})
        here["a"] = AtEnd(see)
        del here["a"]
        self.assertEqual(seen.pop(), {"b": 2})
        here["a"] = here["aa"] = AtEnd(see)
        here.remove_prefix("a")
        self.assertEqual(seen.pop(), {"b": 2})
        here["a"] = AtEnd(see)
        here.clear()
        self.assertEqual(seen, [{}])

    def test_an_addition_that_changes_the_map(self):
        class Number:
            def __add__(self, other):
                here.clear()
                here["new"] = "kept"
                return other

        here = StrMap(number=Number())
        self.assertEqual(here.add("number", 7), 7)
        self.assertEqual(here, {"number": 7, "new": "kept"})

    def test_ends_that_change_the_map(self):
        random.seed(2)
        here = Map()
        key = lambda: bytes(random.choices(b"\0a", k=random.randrange(6)))
        value = lambda: random.choice((1, [], here, AtEnd(change), AtEnd(change)))
        calls = [
            lambda: here.__setitem__(key(), value()),
            lambda: here.__setitem__(key(), value()),
            lambda: here.pop(key(), None),
            lambda: here and here.popitem(),
            lambda: here.setdefault(key(), value()),
            lambda: here.remove_prefix(key()),
            lambda: list(here.prefix(key())),
            lambda: here.copy(),
            lambda: here.clear() if random.random() < 0.01 else None,
        ]
        depth = 0

        def change():
            nonlocal depth
            depth += 1
            # A call may meet that another one, at the end of a value, has changed the map.
            with contextlib.suppress(KeyError, RuntimeError):
                if depth < 10:
                    random.choice(calls)()
            depth -= 1

        gc.set_threshold(3)
        try:
            for _ in range(20_000):
                change()
                self.assertEqual(len(here), len(list(here.items())))
        finally:
            gc.set_threshold(700)
            depth = 10
            here.clear()


class Threads(unittest.TestCase):
    def test_threads_change_one_map(self):
        here = StrMap()

        def run(thread):
            for number in range(5000):
                here[f"{thread} {number}"] = thread
                here.add("sum") if thread == 0 else here.get("sum")
                if number % 2:
                    del here[f"{thread} {number}"]

        threads = [threading.Thread(target=run, args=(it,)) for it in range(4)]
        interval = sys.getswitchinterval()
        sys.setswitchinterval(1e-5)
        for it in threads:
            it.start()
        for it in threads:
            it.join()
        sys.setswitchinterval(interval)
        self.assertEqual(here, {"sum": 5000} | {f"{thread} {number}": thread for thread in range(4) for number in range(0, 5000, 2)})


class Allocations(unittest.TestCase):
    def test_a_failed_insertion_changes_nothing(self):
        ran = subprocess.run([sys.executable, "-c", FILL], capture_output=True, text=True)
        self.assertEqual((ran.returncode, ran.stdout, ran.stderr), (0, "True\n", ""))


if __name__ == "__main__":
    unittest.main()
