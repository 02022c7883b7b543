"""How the limits that a call is given reach the library. `parse` has them, each as a line of its signature."""

from __future__ import annotations

import copy
import inspect
import operator
import struct
from typing import Any, Callable, Dict, List, Optional, Tuple, Union, get_args, get_type_hints

from . import _parser


class Limit:
    """What a parameter's annotation says of its limit.

    The words say what it limits. Without a largest number each number is accepted. What is given as unlimited is what the library
    takes as no limit, for None; without it None isn't accepted.
    """

    def __init__(self, words: str, *, largest: Optional[int] = None, unlimited: Optional[int] = None) -> None:
        self.words = words
        self.largest = largest
        self.unlimited = unlimited
        # No source has more of anything than a word of the library holds.
        self.most = _parser.MAX_TOKENS if largest is None else largest

    def word(self, name: str, value: Any) -> int:
        """Returns a limit as the library takes it. Raises TypeError or ValueError where it is not accepted."""
        if value is None and self.unlimited is not None:
            return self.unlimited
        try:
            number = operator.index(value)
        except TypeError:
            raise TypeError(f"{name} must be an int, not {type(value).__name__}") from None
        if self.largest is not None and not 0 <= number <= self.largest:
            raise ValueError(f"{name} must be from 0 to {self.largest}")
        if number < 0:
            raise ValueError(f"{name} must not be below 0")
        return min(number, self.most)


class SizeLimit(Limit):
    """What a parameter's annotation says of its limit on a number of each operation.

    The library's largest number stands for all above it, so a limit is below it, and None is no limit.
    """

    def __init__(self, words: str) -> None:
        super().__init__(words, largest=_parser.MAX_TOKENS - 1, unlimited=_parser.MAX_TOKENS)


# How limits are written: the words of a firthnapkin_limits, and those on sizes after them.
_WORDS = _parser.LIMITS_SIZE // 4
_LAYOUT = struct.Struct(f"={_WORDS + _parser.SIZES}I")

# What is unlimited: 0 in a firthnapkin_limits, and the largest number for sizes.
_UNLIMITED = (*[0] * _WORDS, *[_parser.MAX_TOKENS] * _parser.SIZES)


class Limits:
    """The limits that a function has: the parameters whose annotations have a limit, in the order of firthnapkin_limits, and then
    those on sizes, in the order of firthnapkin_complexity."""

    def __init__(self, function: Callable[..., object]) -> None:
        hints = get_type_hints(function, include_extras=True)
        found = [(it, limit) for it in _named(function) for limit in _limits_in(hints[it.name])]
        self.by_name: Dict[str, Limit] = {it.name: limit for it, limit in found}
        self.defaults: Dict[str, Optional[int]] = {it.name: it.default for it, _ in found}
        sizes = [name for name, limit in self.by_name.items() if isinstance(limit, SizeLimit)]
        others = [name for name in self.by_name if name not in sizes]
        self._places = {name: i for i, name in (*enumerate(others), *enumerate(sizes, _WORDS))}
        self._words = list(_UNLIMITED)
        for name, i in self._places.items():
            self._words[i] = self.by_name[name].word(name, self.defaults[name])
        self._usual = _LAYOUT.pack(*self._words)
        self._prepare()

    def _prepare(self) -> None:
        """What the extension needs: names, defaults, and the place and the largest number of each."""
        rows = b"".join(struct.pack("=2I", i, self.by_name[name].most) for name, i in self._places.items())
        self._rows = tuple(self._places), tuple(self.defaults[name] for name in self._places), rows

    def shared_with(self, function: Callable[..., object]) -> "Limits":
        """Returns these limits for a function that may have fewer of them. Those that it lacks are the default ones."""
        names = [it.name for it in _named(function)]
        shared = copy.copy(self)
        shared._places = {name: i for name, i in self._places.items() if name in names}
        shared._prepare()
        return shared

    def packed(self, given: Union[Dict[str, Any], Tuple[Any, ...]]) -> bytes:
        """Returns limits as the library takes them. They are given by name, or all of them in the order of their words.

        Raises TypeError or ValueError where one is not accepted.
        """
        # Each step of Python costs as much as a good part of a short text, so the extension reads the usual ones.
        found = _parser.packed(given, self._usual, *self._rows)
        if found is not None:
            return found
        return self._read(given if isinstance(given, dict) else dict(zip(self._places, given)))

    def _read(self, given: Dict[str, Any]) -> bytes:
        """The same for any limits."""
        words = self._words.copy()
        for name, i in self._places.items():
            words[i] = self.by_name[name].word(name, given[name])
        return _LAYOUT.pack(*words)


def packed(*words: int) -> bytes:
    """Returns limits that begin with these words. In the others nothing is limited."""
    return _LAYOUT.pack(*words, *_UNLIMITED[len(words) :])


def has_sizes(limits: bytes) -> bool:
    """Whether one of these limits is on a size."""
    return limits[_parser.LIMITS_SIZE :] != packed()[_parser.LIMITS_SIZE :]


def sizes_of(limits: bytes) -> Tuple[int, ...]:
    """Returns the limits on sizes of these, in the order of a Complexity. The largest number is no limit."""
    return _LAYOUT.unpack(limits)[_WORDS:]


def _named(function: Callable[..., object]) -> List[inspect.Parameter]:
    """Returns the parameters of a function that are given by name."""
    return [it for it in inspect.signature(function).parameters.values() if it.kind is it.KEYWORD_ONLY]


def _limits_in(hint: Any) -> List[Limit]:
    """Returns the limits in an annotation. Before Python 3.11 those of parameters that are None by default are within Optional."""
    return [it for part in (hint, *get_args(hint)) for it in getattr(part, "__metadata__", ()) if isinstance(it, Limit)]
