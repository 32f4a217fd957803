"""Comfort noise, and the random source that it is drawn from (docs/PROFILE.md, "Comfort noise" and
"Random numbers")."""

from trau.rules import profile
from trau.rules.parameters import Block, Parameters


class RandomSource:
    """The random source of a call, which starts at the call's number (docs/PROFILE.md, "Random
    numbers")."""

    def __init__(self, start: int) -> None:
        self.value = start

    def draw(self, below: int) -> int:
        """The next number, from 0 to `below` - 1 (docs/PROFILE.md, "Random numbers")."""
        self.value = (
            profile.RANDOM_STEP * self.value + profile.RANDOM_ADD
        ) % profile.RANDOM_MODULUS
        return self.value * below // profile.RANDOM_MODULUS


def comfort_noise(base: Parameters, source: RandomSource, fall: int) -> Parameters:
    """Comfort noise that has fallen so often from where it stands: in each block draws of the grid
    and of thirteen pulses (docs/PROFILE.md, "Comfort noise")."""

    def block(lag: int, maximum: int) -> Block:
        grid = source.draw(profile.GRID_VALUES)
        pulses = [profile.LEAST_PULSE + source.draw(profile.PULSE_VALUES) for _ in range(13)]
        return Block(lag, 0, grid, max(0, maximum - profile.MUTING_STEP * fall), tuple(pulses))

    blocks = [block(lag, each.xmaxc) for lag, each in zip(profile.NOISE_LAGS, base.blocks)]
    return base._replace(blocks=tuple(blocks))
