"""Stoker's exact solution of a dam break on a wet, flat, frictionless bed (Stoker 1957, ch. 10).

The dam stands at x = 0.  From left to right: still water of depth hl, a rarefaction, water of
one depth hm and one speed um, a bore running at speed s, still water of depth hr.
"""

from math import sqrt

from reach import GRAVITY


class DamBreak:
    def __init__(self, hl, hr):
        self.hl, self.hr = hl, hr
        self.cl = sqrt(GRAVITY * hl)
        self.hm = self._middle()
        self.um = self._behind_rarefaction(self.hm)
        self.s = self.um * self.hm / (self.hm - hr)     # mass across the bore

    def _behind_rarefaction(self, h):
        return 2 * (self.cl - sqrt(GRAVITY * h))

    def _behind_bore(self, h):
        hr = self.hr
        return (h - hr) * sqrt(GRAVITY * (h + hr) / (2 * h * hr))

    def _middle(self):
        """The depth at which rarefaction and bore give the water the same speed, by bisection."""
        low, high = self.hr, self.hl
        for _ in range(100):
            h = (low + high) / 2
            if self._behind_rarefaction(h) > self._behind_bore(h):
                low = h
            else:
                high = h
        return (low + high) / 2

    def bends(self, t):
        """Where the rarefaction begins and ends, and where the bore is."""
        return -self.cl * t, (self.um - sqrt(GRAVITY * self.hm)) * t, self.s * t

    def volume(self, a, b, t):
        """The water between a and b at time t > 0, so that cell means are exact too."""
        head, tail, bore = self.bends(t)

        def inside(low, high):
            return max(a, low), min(b, high)

        def rarefied(x):
            return -t * (2 * self.cl - x / t) ** 3 / (27 * GRAVITY)

        total = 0.0
        low, high = inside(head, tail)
        if low < high:
            total += rarefied(high) - rarefied(low)
        for h, left, right in ((self.hl, a, head), (self.hm, tail, bore), (self.hr, bore, b)):
            low, high = inside(left, right)
            total += h * max(0.0, high - low)
        return total

    def depth(self, x, t):
        head, tail, bore = self.bends(t)
        if x < head:
            return self.hl
        if x < tail:
            return (2 * self.cl - x / t) ** 2 / (9 * GRAVITY)
        return self.hm if x < bore else self.hr
