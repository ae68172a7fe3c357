"""Each call, with results that stand here or are those of a dict."""

import operator
import unittest
from collections.abc import MutableMapping

from vokujin import Map, StrMap

WORDS = {"": 0, "car": 1, "care": 2, "cart": 3, "dog": 4, "é": 5, "日本": 6, "日本語": 7, "\U0001f600": 8}


def pairs_of(*keys):
    return [(key, WORDS[key]) for key in keys]


class Calls(unittest.TestCase):
    def setUp(self):
        self.map = StrMap(WORDS)

    def test_is_a_mutable_mapping(self):
        for kind in Map, StrMap:
            self.assertTrue(issubclass(kind, MutableMapping))
            self.assertIsNone(kind.__hash__)
            self.assertEqual((len(kind()), list(kind()), bool(kind())), (0, [], False))

    def test_values_are_any_objects(self):
        values = [None, [], {}, object(), "text", 1 << 100, float("nan"), Map, self.map]
        here = Map((bytes([at]), value) for at, value in enumerate(values))
        self.assertTrue(all(map(operator.is_, here.values(), values)))
        self.assertIs(here[b"\3"], values[3])

    def test_keys_that_are_like_bytes(self):
        here = Map({b"a\0\xff": 1})
        for key in bytearray(b"a\0\xff"), memoryview(b"a\0\xff"), memoryview(b"\xff.\0.a")[::-2]:
            self.assertEqual((here[key], here.get(key), key in here), (1, 1, True))
        here[bytearray(b"b")] = 2
        self.assertEqual(list(here), [b"a\0\xff", b"b"])

    def test_other_keys_raise_and_change_nothing(self):
        calls = "get", "pop", "setdefault", "add", "prefix", "range", "irange", "count_prefix", "longest_match", "matches", "remove_prefix"
        for here, keys in (Map({b"a": 1}), ("a", 1, None, b"a"[0])), (self.map, (b"a", 1, None, ["a"])):
            before = dict(here)
            for key in keys:
                for call in [operator.getitem, operator.delitem, operator.contains, *(getattr(type(here), it) for it in calls)]:
                    if key is None and call in (type(here).range, type(here).irange):
                        continue  # that is no bound
                    with self.assertRaises(TypeError):
                        call(here, key)
                with self.assertRaises(TypeError):
                    here[key] = 2
            self.assertEqual(dict(here), before)

    def test_lone_surrogates_raise(self):
        with self.assertRaises(UnicodeEncodeError):
            self.map["\ud800"] = 1
        self.assertEqual(self.map, WORDS)

    def test_absent_keys(self):
        for call in operator.getitem, operator.delitem, StrMap.pop:
            with self.assertRaises(KeyError) as raised:
                call(self.map, "cat")
            self.assertEqual(raised.exception.args, ("cat",))
        self.assertEqual((self.map.get("cat"), self.map.get("cat", 9), self.map.pop("cat", 8)), (None, 9, 8))
        self.assertEqual(self.map, WORDS)

    def test_wrong_numbers_of_arguments_raise(self):
        for call in "get", "pop", "setdefault", "add":
            for arguments in (), ("a", 1, 2):
                with self.assertRaises(TypeError):
                    getattr(self.map, call)(*arguments)

    def test_setdefault(self):
        self.assertEqual((self.map.setdefault("car", 9), self.map.setdefault("cat", 9), self.map.setdefault("cow")), (1, 9, None))
        self.assertEqual((self.map["cat"], self.map["cow"]), (9, None))

    def test_add_counts(self):
        here = StrMap()
        self.assertEqual([here.add(word) for word in "to be or not to be".split()], [1, 1, 1, 1, 2, 2])
        self.assertEqual((here.add("to", 2**80), here.add("or", 0.5), here.add("new", 3)), (2**80 + 2, 1.5, 3))
        here["list"] = old = [1]
        self.assertEqual((here.add("list", [2]), old), ([1, 2], [1]))
        with self.assertRaises(TypeError):
            here.add("list")
        self.assertEqual(here, {"to": 2**80 + 2, "be": 2, "or": 1.5, "not": 1, "new": 3, "list": [1, 2]})

    def test_order_is_that_of_code_points(self):
        self.assertEqual(list(self.map), sorted(WORDS))
        self.assertEqual(list(reversed(self.map)), sorted(WORDS, reverse=True))

    def test_views(self):
        for view, wanted in (self.map.keys(), sorted(WORDS)), (self.map.items(), sorted(WORDS.items())), (self.map.values(), [WORDS[it] for it in sorted(WORDS)]):
            self.assertEqual((list(view), list(reversed(view)), len(view)), (wanted, wanted[::-1], 9))
            self.assertIn(wanted[3], view)
        self.assertEqual(self.map.keys() & {"car", "cat"}, {"car"})
        self.assertEqual(self.map.items() - WORDS.items(), set())
        self.assertNotIn(("car", 2), self.map.items())
        del self.map["car"]
        self.assertEqual(len(self.map.keys()), 8)

    def test_ends(self):
        self.assertEqual((self.map.first(), self.map.last()), (("", 0), ("\U0001f600", 8)))
        self.assertEqual((self.map.popitem(), self.map.popitem(last=False), self.map.popitem(last=True)), (("\U0001f600", 8), ("", 0), ("日本語", 7)))
        self.assertEqual(len(self.map), 6)
        self.map.clear()
        self.assertEqual((self.map.first(), self.map.last()), (None, None))
        with self.assertRaises(KeyError):
            self.map.popitem()

    def test_ranges(self):
        self.assertEqual(list(self.map.range("car", "dog")), pairs_of("car", "care", "cart"))
        self.assertEqual(list(self.map.range("dog", reverse=True)), pairs_of("\U0001f600", "日本語", "日本", "é", "dog"))
        for inclusive, wanted in ((True, True), ["car", "care", "cart"]), ((False, True), ["care", "cart"]), ((True, False), ["car", "care"]), ((False, False), ["care"]):
            self.assertEqual(list(self.map.irange("car", "cart", inclusive)), wanted)
            self.assertEqual(list(self.map.irange("car", "cart", inclusive=inclusive, reverse=True)), wanted[::-1])
        self.assertEqual((list(self.map.irange("dog", "car")), list(self.map.irange("cb", "cz"))), ([], []))
        self.assertEqual((list(self.map.irange()), list(self.map.range())), (sorted(WORDS), sorted(WORDS.items())))

    def test_prefixes(self):
        self.assertEqual(list(self.map.prefix("car")), pairs_of("car", "care", "cart"))
        self.assertEqual(list(self.map.prefix("日", reverse=True)), pairs_of("日本語", "日本"))
        self.assertEqual((self.map.count_prefix("car"), self.map.count_prefix(""), self.map.count_prefix("cat")), (3, 9, 0))
        here = Map({b"\xff": 1, b"\xff\xff": 2, b"\xfe": 3})
        self.assertEqual((list(here.prefix(b"\xff")), list(here.prefix(b""))), ([(b"\xff", 1), (b"\xff\xff", 2)], sorted(here.items())))

    def test_matches(self):
        self.assertEqual((self.map.longest_match("carts"), self.map.matches("carts")), (("cart", 3), pairs_of("", "car", "cart")))
        self.assertEqual((self.map.longest_match("日本人"), self.map.matches("日本語学")), (("日本", 6), pairs_of("", "日本", "日本語")))
        self.assertEqual((self.map.longest_match("x"), self.map.matches("")), (("", 0), [("", 0)]))
        del self.map[""]
        self.assertEqual((self.map.longest_match("x"), self.map.matches("x"), self.map.matches("")), (None, [], []))

    def test_remove_prefix(self):
        self.assertEqual((self.map.remove_prefix("cat"), self.map.remove_prefix("car"), self.map.remove_prefix("日")), (0, 3, 2))
        self.assertEqual(list(self.map), ["", "dog", "é", "\U0001f600"])
        self.assertEqual((self.map.remove_prefix(""), list(self.map)), (4, []))

    def test_updates(self):
        class Keys:
            keys = staticmethod(lambda: ["a", "b"])
            __getitem__ = staticmethod(str.upper)

        here = StrMap([("c", 1)], d=2)
        for source in Keys(), {"e": 3}, StrMap(f=4), [("g", 5), ["h", 6]], iter(["i7"]), here:
            here.update(source)
        here.update(j=8)
        self.assertEqual(here, dict(a="A", b="B", c=1, d=2, e=3, f=4, g=5, h=6, i="7", j=8))
        for wrong, error in ("a", ValueError), (["abc"], ValueError), (7, TypeError), ([7], TypeError):
            with self.assertRaises(error):
                here.update(wrong)
        with self.assertRaises(TypeError):
            Map(a=1)

    def test_updates_that_fail_keep_the_pairs_before(self):
        for wrong, error in ((1, 2), TypeError), (("\ud800", 2), UnicodeEncodeError), (("c",), ValueError), (7, TypeError):
            here = StrMap()
            with self.assertRaises(error):
                here.update([("a", 1), ("b", 2), wrong, ("d", 3)])
            self.assertEqual(here, dict(a=1, b=2))
        for source in StrMap(a=1), StrMap(a=1).freeze():
            with self.assertRaises(TypeError):
                Map(source)

    def test_updates_are_those_of_another_class(self):
        class Doubled(StrMap):
            def __setitem__(self, key, value):
                super().__setitem__(key * 2, value)

        class Shown(StrMap):
            def items(self):
                return [("shown", 1)]

        self.assertEqual((Doubled([("a", 1)]), Doubled(StrMap(a=1)), StrMap(Shown(a=1))), (dict(aa=1), dict(aa=1), dict(shown=1)))

    def test_unions(self):
        one, other = StrMap(a=1, b=2), {"b": 3, "c": 4}
        self.assertEqual((one | other, other | one), (dict(a=1, b=3, c=4), dict(a=1, b=2, c=4)))
        self.assertEqual((type(one | other), type(other | one)), (StrMap, StrMap))
        same = one
        one |= [("d", 5)]
        self.assertEqual((one, same is one), (dict(a=1, b=2, d=5), True))
        with self.assertRaises(TypeError):
            one | [("d", 5)]

    def test_comparisons(self):
        nan = float("nan")
        self.assertEqual(StrMap(a=nan), StrMap(a=nan))
        for other in StrMap(a=2), StrMap(b=1), StrMap(a=1, b=1), StrMap(), {"a": 2}, Map({b"a": 1}), [("a", 1)]:
            self.assertNotEqual(StrMap(a=1), other)
        self.assertEqual(StrMap(a=1), {"a": 1})
        self.assertEqual({b"a": 1}, Map({b"a": 1}))

    def test_prints(self):
        self.map["me"] = self.map
        self.assertEqual(eval(repr(Map({b"a": [1]}))), Map({b"a": [1]}))
        self.assertIn("'me': ...", repr(self.map))

    def test_long_keys(self):
        pairs = {bytes([byte]) * (20_000 + byte): byte for byte in range(256)}
        here = Map(pairs)
        self.assertEqual((list(here.items()), list(reversed(here.items()))), (sorted(pairs.items()), sorted(pairs.items(), reverse=True)))
        self.assertEqual((here.first(), here.last()), (min(pairs.items()), max(pairs.items())))
        self.assertEqual((here.popitem(), here.popitem(last=False)), (max(pairs.items()), min(pairs.items())))
        self.assertEqual((here.remove_prefix(b"\7" * 19_999), len(here)), (1, 253))

    def test_compact(self):
        self.map.compact()
        self.assertEqual(list(self.map.items()), sorted(WORDS.items()))


class Iterations(unittest.TestCase):
    def setUp(self):
        self.map = Map((b"%d" % number, number) for number in range(1000))

    def test_changes_of_keys_raise(self):
        def insert(map):
            map[b"new"] = 1

        changes = insert, Map.popitem, Map.clear, lambda map: map.pop(b"500"), lambda map: map.remove_prefix(b"50"), lambda map: map.add(b"new"), lambda map: map.setdefault(b"new")
        for change in changes:
            for steps in 0, 3, 500:
                for begin in iter, reversed, Map.prefix:
                    here = self.map.copy()
                    iteration = begin(here, b"") if begin is Map.prefix else begin(here)
                    for _ in range(steps):
                        next(iteration)
                    change(here)
                    for _ in range(2):
                        with self.assertRaises(RuntimeError):
                            next(iteration)

    def test_changed_values_are_seen(self):
        here = self.map.copy()
        for value, later in zip(here.values(), [*list(here)[1:], None]):
            if later:
                here[later] = here.add(later, 1000)
                self.assertEqual(here[later], int(later) + 1000)
        self.assertEqual([value - 1000 for value in here.values()][1:], [int(key) for key in here][1:])
        for key, value in here.items():
            self.assertIn(value, (int(key) + 1000, 0))
            here[key] = "seen"
        self.assertEqual(set(here.values()), {"seen"})
        pairs = here.items().__iter__()
        next(pairs)
        here[b"1"], here[b"10"] = "one", "ten"
        self.assertEqual([next(pairs), next(pairs)], [(b"1", "one"), (b"10", "ten")])

    def test_an_iteration_ends_once(self):
        iteration = iter(Map({b"a": 1}))
        self.assertEqual([next(iteration, None) for _ in range(3)], [b"a", None, None])
        self.assertEqual([*zip(self.map, self.map)], [(key, key) for key in self.map])

    def test_an_iteration_keeps_its_map(self):
        iteration = self.map.items().__iter__()
        del self.map
        self.assertEqual(len(list(iteration)), 1000)


if __name__ == "__main__":
    unittest.main()
