"""Refusals: the numbered answers of calls that were not carried out (docs/refusals.md)."""

from __future__ import annotations

from collections.abc import Iterable

LAYER_OF = {1: "cipher", 2: "cipher", 3: "cipher", 4: "mode", 5: "end", 13: "end", 14: "tube", 15: "end", 16: "end", 17: "end", 18: "end"}
LAYER_OF |= {number: "mode" for number in range(6, 13)}


class Refusal(Exception):
    """A refused call: its number, its values in the order of the table, and the layers that the fault passed through, innermost first."""

    def __init__(self, number: int, *values: int, above: Iterable[str] = ()) -> None:
        super().__init__(number, values)
        self.number = number
        self.values = values
        self.layers = (LAYER_OF[number], *above)

    def within(self, layer: str) -> Refusal:
        """The same fault, carried whole inside one of the layer above."""
        return Refusal(self.number, *self.values, above=(*self.layers[1:], layer))
