"""The maps beside dicts of objects, by random calls."""

import random
import unittest

from vokujin import Map, StrMap

CALLS = 50_000


class Object:
    """A value that is like no other one."""


def matches(model, query):
    return sorted(pair for pair in model.items() if query.startswith(pair[0]))


class Beside:
    def test_does_what_a_dict_does(self):
        random.seed(1)
        self.here, self.model = self.kind(), {}
        for turn in range(CALLS):
            getattr(self, random.choice(("insert", "insert", "insert", "overwrite", "remove", "look_up", "take_end", "take_prefix", "default")))(self.key())
            self.assertEqual(len(self.here), len(self.model))
            if turn % 500 == 0:
                self.are_the_same(self.key(), self.key())
            if turn % 10_000 == 9_999:
                self.here.compact()
        self.are_the_same(self.key(), self.key())
        self.here.clear()
        self.assertEqual((list(self.here), len(self.here)), ([], 0))

    def test_is_made_of_pairs_in_any_order(self):
        random.seed(7)
        for _ in range(1000):
            keys = [self.key() for _ in range(random.randrange(40))]
            count = random.randrange(len(keys) + 1)
            keys[:count] = sorted(set(keys[:count]))
            pairs = [random.choice((tuple, list))((key, Object())) if random.random() < 0.02 else (key, Object()) for key in keys]
            wanted = sorted(dict(pairs).items(), key=lambda pair: pair[0])
            for source in pairs, iter(pairs), tuple(pairs), self.kind(pairs), self.kind(pairs).freeze():
                here = self.kind(source)
                self.assertEqual(list(here.items()), wanted)
                self.assertEqual((here.copy(), len(here)), (dict(pairs), len(wanted)))

    def insert(self, key):
        self.here[key] = self.model[key] = Object()

    def overwrite(self, key):
        for stored in self.here.irange(key):
            return self.insert(stored)

    def remove(self, key):
        self.assertIs(self.here.pop(key, None), self.model.pop(key, None))

    def look_up(self, key):
        self.assertIs(self.here.get(key), self.model.get(key))
        self.assertEqual(key in self.here, key in self.model)
        found = matches(self.model, key) if random.random() < 0.1 else None
        if found is not None:
            self.assertEqual((self.here.matches(key), self.here.longest_match(key)), (found, found[-1] if found else None))

    def take_end(self, key):
        if self.model and key < self.middle:
            is_last = random.random() < 0.5
            stored = (max if is_last else min)(self.model)
            self.assertEqual(self.here.popitem(last=is_last), (stored, self.model.pop(stored)))

    def take_prefix(self, key):
        if len(key) > 3:
            found = [stored for stored in self.model if stored.startswith(key)]
            self.assertEqual(self.here.remove_prefix(key), len(found))
            for stored in found:
                del self.model[stored]

    def default(self, key):
        value = Object()
        self.assertIs(self.here.setdefault(key, value), self.model.setdefault(key, value))

    def are_the_same(self, key, other):
        pairs = sorted(self.model.items(), key=lambda pair: pair[0])
        part = [pair for pair in pairs if pair[0].startswith(key)]
        between = [pair for pair in pairs if key <= pair[0] < other]
        self.assertEqual(self.here, self.model)
        self.assertEqual((list(self.here.items()), list(reversed(self.here.items()))), (pairs, pairs[::-1]))
        self.assertEqual((list(self.here.prefix(key)), list(self.here.prefix(key, reverse=True)), self.here.count_prefix(key)), (part, part[::-1], len(part)))
        self.assertEqual((list(self.here.range(key, other)), list(self.here.range(key, other, reverse=True))), (between, between[::-1]))
        self.assertEqual((self.here.first(), self.here.last()), (pairs[0], pairs[-1]) if pairs else (None, None))


class BesideBytes(Beside, unittest.TestCase):
    kind, middle = Map, b"\1\1"

    def key(self):
        highest = random.choice((2, 2, 2, 255))
        return bytes(random.choice((0, 1, highest)) for _ in range(random.randrange(7)))


class BesideStrings(Beside, unittest.TestCase):
    kind, middle = StrMap, "aé"

    def key(self):
        return "".join(random.choice("\0aé語\U0001f600") for _ in range(random.randrange(6)))


if __name__ == "__main__":
    unittest.main()
