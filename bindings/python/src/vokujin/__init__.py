"""Ordered maps of bytes and of strings, with prefixes and longest-prefix matches, over a proved library.

>>> from vokujin import Map, StrMap
>>> routes = Map({b"10": "east", b"10.1": "west", b"192.168": None})
>>> routes.longest_match(b"10.1.7.9")
(b'10.1', 'west')
>>> words = StrMap()
>>> for word in "to be or not to be".split():
...     _ = words.add(word)
>>> words
StrMap({'be': 2, 'not': 1, 'or': 1, 'to': 2})
>>> list(words.prefix("b"))
[('be', 2)]

A map is changed by one thread at a time, since each call holds the interpreter's lock. A build without that lock turns it on
when it imports this module. A frozen map looks up many keys at once without that lock: see Map.freeze. After os.fork each
process has a map of its own.
"""

import copy
import copyreg
import itertools
import operator
from collections.abc import ItemsView, KeysView, Mapping, MutableMapping, ValuesView
from reprlib import recursive_repr

from vokujin import _core
from vokujin._core import ITEMS, KEYS, VALUES

__all__ = ["FrozenMap", "FrozenStrMap", "Map", "StrMap"]
__version__ = "0.1.0"


class _Keys(KeysView):
    __slots__ = ()

    def __iter__(self):
        return iter(self._mapping)

    def __reversed__(self):
        return reversed(self._mapping)


class _Values(ValuesView):
    __slots__ = ()

    def __iter__(self):
        return self._mapping._all(VALUES)

    def __reversed__(self):
        return self._mapping._all(VALUES, reverse=True)


class _Items(ItemsView):
    __slots__ = ()

    def __iter__(self):
        return self._mapping._all(ITEMS)

    def __reversed__(self):
        return self._mapping._all(ITEMS, reverse=True)


def _pairs_of(pairs):
    """Returns the pairs of a mapping, or of an iterable of pairs."""
    if isinstance(pairs, Mapping):
        return pairs.items()
    if hasattr(pairs, "keys"):
        return [(key, pairs[key]) for key in pairs.keys()]
    return pairs


class _Ordered(Mapping):
    """What maps of all kinds of keys have in common, frozen ones too, over the calls of their core."""

    __slots__ = ()

    @classmethod
    def fromkeys(cls, keys, value=None, /):
        """Returns a map that has one value for all these keys.

        >>> StrMap.fromkeys("ba", 0)
        StrMap({'a': 0, 'b': 0})
        """
        return cls((key, value) for key in keys)

    def first(self):
        """Returns the pair with the first key, or None if the map is empty.

        >>> Map({b"b": 1, b"a": 2}).first()
        (b'a', 2)
        """
        return self._end(False)

    def last(self):
        """Returns the pair with the last key, or None if the map is empty."""
        return self._end(True)

    def range(self, start=None, end=None, reverse=False):
        """Returns an iterator of the pairs with start <= key < end, in the order of their keys. None is no bound.

        >>> list(Map({b"a": 1, b"b": 2, b"c": 3}).range(b"b", reverse=True))
        [(b'c', 3), (b'b', 2)]
        """
        return self._range(ITEMS, start, True, end, False, bool(reverse))

    def irange(self, minimum=None, maximum=None, inclusive=(True, True), reverse=False):
        """Returns an iterator of the keys from a minimum to a maximum, which belong to the range as `inclusive` says.

        >>> list(StrMap({"a": 1, "b": 2, "c": 3}).irange("a", "c", inclusive=(False, True)))
        ['b', 'c']
        """
        has_minimum, has_maximum = inclusive
        return self._range(KEYS, minimum, bool(has_minimum), maximum, bool(has_maximum), bool(reverse))

    def prefix(self, prefix, reverse=False):
        """Returns an iterator of the pairs whose keys start with a prefix, in the order of their keys.

        >>> list(StrMap({"car": 1, "cart": 2, "dog": 3}).prefix("ca"))
        [('car', 1), ('cart', 2)]
        """
        return self._prefix(ITEMS, prefix, bool(reverse))

    def _all(self, kind, reverse=False):
        return self._range(kind, None, True, None, True, reverse)

    def __iter__(self):
        return self._all(KEYS)

    def __reversed__(self):
        return self._all(KEYS, reverse=True)

    def keys(self):
        """Returns a view of the keys in their order."""
        return _Keys(self)

    def values(self):
        """Returns a view of the values in the order of their keys."""
        return _Values(self)

    def items(self):
        """Returns a view of the pairs in the order of their keys.

        >>> list(reversed(Map({b"a": 1, b"b": 2}).items()))
        [(b'b', 2), (b'a', 1)]
        """
        return _Items(self)

    def __eq__(self, other):
        if isinstance(other, type(self)):
            return len(self) == len(other) and all(map(operator.eq, self.items(), other.items()))
        return super().__eq__(other)

    @recursive_repr()
    def __repr__(self):
        return f"{type(self).__name__}({{{', '.join(f'{key!r}: {value!r}' for key, value in self.items())}}})"


class _Changed(_Ordered, MutableMapping):
    """What maps that may be changed have beside that."""

    __slots__ = ()

    def __init__(self, pairs=(), /, **named):
        self.update(pairs, **named)

    def update(self, pairs=(), /, **named):
        """Inserts the pairs of a mapping, or of an iterable of pairs. Keys that are inserted in their order stand in memory as
        after compact, which makes iterations faster. An empty map takes those of another map, or of a list whose keys rise, in
        less time.

        >>> ages = Map({b"ann": 31})
        >>> ages.update([(b"ann", 32), (b"bob", 27)])
        >>> ages
        Map({b'ann': 32, b'bob': 27})
        """
        # Another class may insert, or may read the pairs of a map, in its own way.
        has_pairs = type(pairs) is list or getattr(type(pairs), "items", None) is _Ordered.items
        if has_pairs and type(self).__setitem__ is _core.BytesCore.__setitem__:
            pairs = self._start(pairs)
        for key, value in itertools.chain(_pairs_of(pairs), named.items()):
            self[key] = value

    def add_all(self, pairs=(), /):
        """Adds the numbers of a mapping, or of an iterable of pairs, each to the value of its key.

        >>> counts = StrMap(be=1, to=2)
        >>> counts.add_all({"be": 3, "or": 1})
        >>> counts
        StrMap({'be': 4, 'or': 1, 'to': 2})
        """
        for key, number in _pairs_of(pairs):
            self.add(key, number)

    def copy(self):
        """Returns a map of the same pairs, whose values are the same objects."""
        return type(self)(self)

    def popitem(self, last=True):
        """Removes the pair with the last key, or with the first one, and returns it. An empty map raises KeyError.

        >>> jobs = StrMap({"mow": 3, "dig": 1, "sow": 2})
        >>> jobs.popitem(), jobs.popitem(last=False), jobs
        (('sow', 2), ('dig', 1), StrMap({'mow': 3}))
        """
        pair = self._take_end(bool(last))
        if pair is None:
            raise KeyError("the map is empty")
        return pair

    def freeze(self):
        """Moves the pairs to a frozen map, which no call changes, and returns it. This map is empty then.

        >>> routes = Map({b"10": "east", b"10.1": "west"})
        >>> frozen = routes.freeze()
        >>> frozen.longest_match_many([b"10.1.7", b"10.2", b"11"]), routes
        ([(b'10.1', 'west'), (b'10', 'east'), None], Map({}))

        It takes the same time for any number of pairs. If an allocation fails, it raises MemoryError, and this map is
        unchanged.
        """
        return self._freeze(self._frozen)

    def __or__(self, other):
        if not isinstance(other, Mapping):
            return NotImplemented
        joined = self.copy()
        joined.update(other)
        return joined

    def __ror__(self, other):
        if not isinstance(other, Mapping):
            return NotImplemented
        joined = type(self)(other)
        joined.update(self)
        return joined

    def __ior__(self, other):
        self.update(other)
        return self

    def __reduce__(self):
        # The pairs are inserted after the map is made, so that they may refer to it.
        return copyreg.__newobj__, (type(self),), getattr(self, "__dict__", None) or None, None, iter(self.items())


class _Frozen(_Ordered):
    """What frozen maps have beside that."""

    __slots__ = ()

    def __new__(cls, pairs=(), /, **named):
        return cls._map(pairs, **named)._freeze(cls)

    def __copy__(self):
        return self

    def __deepcopy__(self, memo):
        pairs = copy.deepcopy(list(self.items()), memo)
        # Where a value refers to this map, the two have been copied together.
        if id(self) not in memo:
            memo[id(self)] = made = type(self)(pairs)
            if hasattr(self, "__dict__"):
                made.__dict__.update(copy.deepcopy(self.__dict__, memo))
        return memo[id(self)]

    def __reduce__(self):
        return type(self), (list(self.items()),), getattr(self, "__dict__", None) or None


class FrozenMap(_core.FrozenCore, _Frozen):
    """A map that is not changed: what Map.freeze returns, or a map of the pairs of a mapping or an iterable of pairs.

    >>> FrozenMap({b"b": 2, b"a": 1})
    FrozenMap({b'a': 1, b'b': 2})

    It has the calls of Map that change nothing, and two that look up many keys. While they do that other threads run, and may
    look up keys in the same map; the lock is held while keys are taken from Python's objects, and results made of them.

    >>> FrozenMap({b"b": 2, b"a": 1}).get_many([b"a", b"c", b"b"], 0)
    [1, 0, 2]
    """

    __slots__ = ("__weakref__",)


class FrozenStrMap(_core.FrozenCore, _Frozen):
    """A StrMap that is not changed: what StrMap.freeze returns. It has the calls of FrozenMap.

    >>> FrozenStrMap(car=1, cart=2).longest_match_many(["carton", "dog"])
    [('cart', 2), None]
    """

    __slots__ = ("__weakref__",)


class Map(_core.BytesCore, _Changed):
    """An ordered map whose keys are bytes, and whose values are any objects.

    >>> codes = Map({b"car": 1, b"cart": 2, b"dog": 3})
    >>> codes[b"cart"], len(codes), b"cow" in codes
    (2, 3, False)
    >>> del codes[b"dog"]
    >>> list(codes)
    [b'car', b'cart']

    Keys may be given as a bytearray or a memoryview too; another type raises TypeError. Keys are ordered by their bytes, a
    prefix first.

    >>> codes.longest_match(b"carton"), codes.matches(b"carton")
    ((b'cart', 2), [(b'car', 1), (b'cart', 2)])
    >>> codes.count_prefix(b"ca"), codes.remove_prefix(b"ca"), codes
    (2, 2, Map({}))

    A lookup, an insertion and a removal take time in proportion to the length of the key at most. If an allocation fails,
    a call raises MemoryError, and the map is unchanged. An iteration raises RuntimeError once keys were inserted or removed
    since it began; it returns values as they are then.
    """

    __slots__ = ("__weakref__",)
    _frozen = FrozenMap


class StrMap(_core.TextCore, _Changed):
    """An ordered map whose keys are strings, and whose values are any objects.

    It has the calls of Map. Keys are stored as UTF-8, so their order is that of their code points, which is that of Python's
    strings too. A key with a lone surrogate has no UTF-8, and raises UnicodeEncodeError.

    >>> towns = StrMap(Köln=1, Kölleda=2, Ulm=3)
    >>> list(towns), towns.longest_match("Ulmer")
    (['Kölleda', 'Köln', 'Ulm'], ('Ulm', 3))
    """

    __slots__ = ("__weakref__",)
    _frozen = FrozenStrMap


FrozenMap._map, FrozenStrMap._map = Map, StrMap
