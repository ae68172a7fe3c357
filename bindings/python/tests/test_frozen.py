"""Frozen maps: their calls, what they refer to, and threads that read one at once."""

import copy
import gc
import operator
import pickle
import random
import sys
import threading
import time
import unittest
import weakref
from collections.abc import Mapping, MutableMapping

from vokujin import FrozenMap, FrozenStrMap, Map, StrMap

WORDS = {"": 0, "car": 1, "care": 2, "cart": 3, "dog": 4, "é": 5, "日本": 6, "日本語": 7, "\U0001f600": 8}


class Object:
    """A value that can be referred to weakly, and may refer to others."""


class Calls(unittest.TestCase):
    def setUp(self):
        self.map = FrozenStrMap(WORDS)

    def test_a_map_is_empty_once_it_is_frozen(self):
        for kind, frozen_kind, key in (Map, FrozenMap, b"a"), (StrMap, FrozenStrMap, "a"):
            here, value = kind({key: 1}), [1]
            iteration = iter(here)
            frozen = here.freeze()
            self.assertEqual((type(frozen), dict(frozen), len(here), list(here)), (frozen_kind, {key: 1}, 0, []))
            self.assertRaises(RuntimeError, next, iteration)
            here[key] = value
            self.assertEqual((frozen[key], here[key]), (1, value))
            self.assertEqual((len(kind().freeze()), list(frozen_kind())), (0, []))

    def test_is_a_mapping_that_no_call_changes(self):
        for kind in FrozenMap, FrozenStrMap:
            self.assertTrue(issubclass(kind, Mapping) and not issubclass(kind, MutableMapping))
            self.assertIsNone(kind.__hash__)
        for call in operator.delitem, lambda map, key: operator.setitem(map, key, 1):
            self.assertRaises(TypeError, call, self.map, "car")
        for name in "pop", "popitem", "setdefault", "update", "add", "add_all", "clear", "compact", "remove_prefix", "freeze", "_freeze", "_take_end":
            self.assertFalse(hasattr(self.map, name), name)

    def test_is_made_by_no_other_way(self):
        core = FrozenMap.__mro__[1]
        for call in core, core.__mro__[1], lambda: object.__new__(FrozenMap), lambda: Map()._freeze(Map), lambda: Map()._freeze(1), lambda: Map()._freeze():
            self.assertRaises(TypeError, call)

    def test_reads_are_those_of_a_map(self):
        random.seed(3)
        pairs = {"".join(random.choices("\0aé語", k=random.randrange(6))): Object() for _ in range(300)}
        here, frozen, queries = StrMap(pairs), FrozenStrMap(pairs), [*pairs, "x", "aaaaaaa", "é语"]
        for call in dict, list, len, bool, lambda map: list(reversed(map)), lambda map: (map.first(), map.last()):
            self.assertEqual(call(frozen), call(here))
        for name in "keys", "values", "items":
            for call in list, lambda view: list(reversed(view)), len:
                self.assertEqual(call(getattr(frozen, name)()), call(getattr(here, name)()))
        for query in queries:
            for name in "get", "count_prefix", "longest_match", "matches", "__contains__":
                self.assertEqual(getattr(frozen, name)(query), getattr(here, name)(query), (name, query))
            for name in "prefix", "range", "irange":
                self.assertEqual(list(getattr(frozen, name)(query)), list(getattr(here, name)(query)))
                self.assertEqual(list(getattr(frozen, name)(query, reverse=True)), list(getattr(here, name)(query, reverse=True)))
        self.assertEqual((frozen, frozen), (here, pairs))
        self.assertNotEqual(frozen, FrozenStrMap())

    def test_ends(self):
        self.assertEqual((self.map.first(), self.map.last()), (("", 0), ("\U0001f600", 8)))
        self.assertEqual((FrozenMap().first(), FrozenMap().last()), (None, None))
        long = {b"a" * 300: 1, b"b" * 70_000: 2}
        self.assertEqual((FrozenMap(long).first(), FrozenMap(long).last(), FrozenMap(long).count_prefix(b"")), ((b"a" * 300, 1), (b"b" * 70_000, 2), 2))

    def test_prefixes_are_counted(self):
        here = FrozenMap({b"%d" % number: None for number in range(5000)} | {b"\xff" * 3: None})
        self.assertEqual([here.count_prefix(it) for it in (b"", b"1", b"12", b"4999", b"x", b"\xff")], [5001, 1111, 111, 1, 0, 1])
        for wrong in "a", None, 1:
            self.assertRaises(TypeError, here.count_prefix, wrong)

    def test_many_keys(self):
        keys = ["cart", "cat", "", "日本語", "\0", "cart"]
        self.assertEqual(self.map.get_many(keys), [3, None, 0, 7, None, 3])
        self.assertEqual(self.map.get_many(iter(keys), -1), [3, -1, 0, 7, -1, 3])
        self.assertEqual((self.map.get_many([]), self.map.longest_match_many(())), ([], []))
        self.assertEqual(self.map.longest_match_many(["carton", "日本人", "x"]), [("cart", 3), ("日本", 6), ("", 0)])
        here = FrozenMap({b"10": "east", b"10.1": "west"})
        self.assertEqual(here.longest_match_many([b"10.1.7", bytearray(b"10.2"), memoryview(b"11")]), [(b"10.1", "west"), (b"10", "east"), None])
        self.assertEqual(here.get_many([bytearray(b"10"), memoryview(b"01")[::-1]]), ["east", "east"])

    def test_one_wrong_key_of_many_raises(self):
        key = b"a key of its own %d" % random.getrandbits(64)
        count = sys.getrefcount(key)
        for here, wrong in (FrozenMap({b"a": 1}), "a"), (FrozenMap({b"a": 1}), 1):
            for call in here.get_many, here.longest_match_many:
                self.assertRaises(TypeError, call, [key, key, wrong])
                self.assertRaises(TypeError, call, 7)
                self.assertRaises(TypeError, call)
        self.assertRaises(UnicodeEncodeError, self.map.get_many, ["a", "\ud800"])
        self.assertEqual(sys.getrefcount(key), count)

    def test_copies(self):
        class Named(FrozenStrMap):
            pass

        globals()["Named"], Named.__qualname__ = Named, "Named"
        here = Named(WORDS, more=[1])
        here.name = "a name"
        self.assertIs(copy.copy(here), here)
        for copied in copy.deepcopy, *(lambda map, it=it: pickle.loads(pickle.dumps(map, it)) for it in range(pickle.HIGHEST_PROTOCOL + 1)):
            other = copied(here)
            self.assertEqual((type(other), other.name, dict(other)), (Named, "a name", WORDS | {"more": [1]}))
            self.assertIsNot(other["more"], here["more"])
        self.assertEqual((Named.fromkeys("ba", 0), repr(FrozenMap({b"a": [1]}))), ({"a": 0, "b": 0}, "FrozenMap({b'a': [1]})"))

    def test_a_value_may_refer_to_its_map(self):
        values = [
            (list, list.append, operator.itemgetter(0)),
            (Map, lambda value, map: value.update({b"map": map}), operator.itemgetter(b"map")),
            (Object, lambda value, map: setattr(value, "map", map), operator.attrgetter("map")),
        ]
        for copied in copy.deepcopy, *(lambda map, it=it: pickle.loads(pickle.dumps(map, it)) for it in range(pickle.HIGHEST_PROTOCOL + 1)):
            for make, refer, map_of in values:
                value = make()
                here = FrozenMap({b"one": value, b"other": value})
                refer(value, here)
                other = copied(here)
                self.assertIs(map_of(other[b"one"]), other)
                self.assertIs(other[b"one"], other[b"other"])
                self.assertIsNot(other, here)


class References(unittest.TestCase):
    def test_each_pair_has_one_reference(self):
        value = Object()
        count = sys.getrefcount(value)
        frozen = Map((b"%d" % number, value) for number in range(100)).freeze()
        self.assertEqual(sys.getrefcount(value) - count, 100)
        found = frozen.get_many([b"1", b"x", b"2"]), frozen.longest_match_many([b"12x", b"x"])
        self.assertEqual(sys.getrefcount(value) - count, 103)
        del found
        self.assertEqual(sys.getrefcount(value) - count, 100)
        del frozen
        self.assertEqual(sys.getrefcount(value) - count, 0)

    def test_defaults_and_keys_are_not_kept(self):
        frozen, default, key = FrozenMap(), Object(), bytes(random.choices(range(256), k=40))
        before = sys.getrefcount(default), sys.getrefcount(key)
        for _ in range(100):
            frozen.get_many([key] * 10, default)
            frozen.longest_match_many([key] * 10)
        self.assertEqual((sys.getrefcount(default), sys.getrefcount(key)), before)

    def test_cycles_are_collected(self):
        class Seen(FrozenMap):
            pass

        for _ in range(3):
            value = Object()
            frozen = Seen({b"a": value, b"b": value})
            value.map = frozen
            seen = weakref.ref(value), weakref.ref(frozen)
            del frozen, value
            gc.collect()
            self.assertEqual([it() for it in seen], [None, None])


class Threads(unittest.TestCase):
    def setUp(self):
        random.seed(4)
        self.pairs = {"".join(random.choices("abcd", k=random.randrange(12))): number for number in range(20_000)}
        self.keys = random.sample(list(self.pairs), len(self.pairs)) + ["e" * at for at in range(1, 100)]
        self.found = [self.pairs.get(key) for key in self.keys]

    def run_all(self, *calls):
        failed = []

        def run(call):
            try:
                call()
            except BaseException as error:
                failed.append(error)

        threads = [threading.Thread(target=run, args=(call,)) for call in calls]
        for it in threads:
            it.start()
        for it in threads:
            it.join()
        self.assertEqual(failed, [])

    def test_threads_read_one_map_at_once(self):
        frozen = StrMap(self.pairs).freeze()

        def read():
            for _ in range(5):
                self.assertEqual(frozen.get_many(self.keys), self.found)
                matches = frozen.longest_match_many([f"{key}!" for key in self.keys[:1000]])
                self.assertEqual(matches, [(key, self.pairs[key]) for key in self.keys[:1000]])

        def one_by_one():
            for key, value in zip(self.keys, self.found):
                self.assertEqual(frozen.get(key), value)
            self.assertEqual(len(list(frozen.items())), len(self.pairs))

        self.run_all(read, read, read, one_by_one)

    def test_the_lists_may_change_meanwhile(self):
        frozen, keys, running = StrMap(self.pairs).freeze(), list(self.keys), [True]

        def read():
            try:
                for _ in range(20):
                    self.assertLessEqual(set(frozen.get_many(keys)), {*self.found, None})
            finally:
                running.clear()

        def change():
            while running:
                keys.clear()
                keys.extend(f"{key}" for key in self.keys)

        self.run_all(read, change)

    def test_a_map_that_is_dropped_meanwhile(self):
        kept = [StrMap(self.pairs).freeze()]
        self.run_all(*[lambda: self.assertEqual(kept[0].get_many(self.keys), self.found)] * 3)
        call = kept[0].get_many
        self.run_all(lambda: self.assertEqual(call(self.keys), self.found), kept.clear)

    def test_other_threads_run_during_a_call(self):
        # The interpreter asks for its lock so seldom that this thread goes on during the call, or after it.
        keys, interval = self.keys * 20, sys.getswitchinterval()
        frozen = StrMap(self.pairs).freeze()

        def who_is_first():
            order, begun = [], threading.Event()
            reader = threading.Thread(target=lambda: (begun.set(), frozen.get_many(keys), order.append("the reader")))
            reader.start()
            begun.wait()
            order.append("this thread")
            reader.join()
            return order[0]

        sys.setswitchinterval(100)
        try:
            # On a busy machine this thread may wake up late.
            self.assertIn("this thread", (who_is_first() for _ in range(20)))
        finally:
            sys.setswitchinterval(interval)


if __name__ == "__main__":
    unittest.main()
