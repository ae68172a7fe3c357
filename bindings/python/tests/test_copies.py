"""Copies: each is a map of its own, whichever is dropped first."""

import copy
import gc
import os
import pickle
import unittest

from vokujin import Map, StrMap

PAIRS = {b"a": 1, b"ab": 2, b"b" * 100: 3}
COPIES = {
    "copy.copy": copy.copy,
    "copy.deepcopy": copy.deepcopy,
    "copy": Map.copy,
    "Map": Map,
    **{f"pickle {it}": lambda map, it=it: pickle.loads(pickle.dumps(map, it)) for it in range(pickle.HIGHEST_PROTOCOL + 1)},
}


class Named(Map):
    """A map with an attribute."""


class Copies(unittest.TestCase):
    def test_a_copy_has_the_same_pairs(self):
        for name, copied in COPIES.items():
            with self.subTest(name):
                map = Map(PAIRS)
                self.assertEqual(list(copied(map).items()), sorted(PAIRS.items()))

    def test_a_copy_stays_when_its_source_is_dropped(self):
        for name, copied in COPIES.items():
            with self.subTest(name):
                map = Map(PAIRS)
                other = copied(map)
                del map
                gc.collect()
                self.assertEqual((len(other), list(other)), (3, sorted(PAIRS)))
                other[b"c"] = 4
                self.assertEqual(other[b"c"], 4)

    def test_a_source_stays_when_its_copy_is_dropped(self):
        for name, copied in COPIES.items():
            with self.subTest(name):
                map = Map(PAIRS)
                copied(map).clear()
                gc.collect()
                self.assertEqual((len(map), list(map)), (3, sorted(PAIRS)))

    def test_a_change_of_one_is_none_of_the_other(self):
        for name, copied in COPIES.items():
            with self.subTest(name):
                map = Map(PAIRS)
                other = copied(map)
                map[b"a"], other[b"new"] = 7, 8
                del other[b"ab"]
                self.assertEqual(list(map.items()), sorted((PAIRS | {b"a": 7}).items()))
                self.assertEqual(list(other), [b"a", b"b" * 100, b"new"])

    def test_deep_copies_and_pickles_copy_values(self):
        map = StrMap(shared=[1], same=None)
        map["same"] = map["shared"]
        for copied in copy.deepcopy, COPIES["pickle 2"]:
            other = copied(map)
            self.assertEqual(other, map)
            self.assertIs(other["same"], other["shared"])
            self.assertIsNot(other["same"], map["same"])
        for copied in copy.copy, StrMap.copy:
            self.assertIs(copied(map)["same"], map["same"])

    def test_a_map_may_have_itself_as_a_value(self):
        map = StrMap(plain=1)
        map["self"] = map
        for copied in copy.deepcopy, COPIES["pickle 2"]:
            other = copied(map)
            self.assertIs(other["self"], other)
            self.assertEqual(list(other), ["plain", "self"])
        self.assertIs(copy.copy(map)["self"], map)

    def test_attributes_are_copied(self):
        map = Named(PAIRS)
        map.name = "a name"
        for copied in copy.copy, copy.deepcopy, COPIES["pickle 2"]:
            other = copied(map)
            self.assertEqual((type(other), other.name, other), (Named, "a name", map))

    def test_a_pickle_has_sorted_pairs(self):
        one, other = Map({b"a": 1, b"b": 2}), Map({b"b": 2, b"a": 1})
        self.assertEqual(pickle.dumps(one), pickle.dumps(other))

    def test_each_process_has_a_map_of_its_own_after_a_fork(self):
        map = Map(PAIRS)
        child = os.fork()
        if child == 0:
            map[b"child"] = 5
            del map[b"a"]
            os._exit(0 if list(map) == [b"ab", b"b" * 100, b"child"] else 1)
        map[b"parent"] = 6
        self.assertEqual(os.waitpid(child, 0)[1], 0)
        self.assertEqual(list(map), [*sorted(PAIRS), b"parent"])


if __name__ == "__main__":
    unittest.main()
