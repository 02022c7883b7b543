"""Where graphql-core's functions are put by name, and what is put there."""

from __future__ import annotations

import sys
from typing import Any, Callable, List, Tuple

__all__ = ["Place"]


class Place:
    """One of graphql-core's functions, in whose place another one is put."""

    def __init__(self, own: Callable[..., Any], ours: Callable[..., Any]) -> None:
        self._own, self.ours = own, ours
        # What was put there last, and where: the modules, and the names in them.
        self._put = ours
        self._replaced: List[Tuple[Any, str]] = []

    def replace(self, put: Callable[..., Any]) -> None:
        """Puts this one under each name by which a module has graphql-core's own by now, or what was put there before."""
        before, self._put = self._put, put
        for module, name in self._replaced:
            if getattr(module, name, None) is before:
                setattr(module, name, put)
        for module_name, module in list(sys.modules.items()):
            if module_name.startswith("firthnapkin."):
                continue
            for name, value in list(getattr(module, "__dict__", {}).items()):
                if value is self._own or (value is before and before is not self.ours):
                    setattr(module, name, put)
                    self._replaced.append((module, name))

    def put_back(self) -> None:
        """Puts graphql-core's own back, unless something else has been put there since."""
        while self._replaced:
            module, name = self._replaced.pop()
            if getattr(module, name, None) is self._put:
                setattr(module, name, self._own)
