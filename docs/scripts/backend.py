"""A backend for another store: a class with four calls."""

import bisect

from piql.hosts import Backend, Guard


class Pairs(Backend):
    def __init__(self):
        self.keys, self.values = [], {}

    def get(self, key):
        return self.values.get(key)

    def range(self, low, high, limit):
        begin, end = bisect.bisect_left(self.keys, low), bisect.bisect_left(self.keys, high)
        return [(key, self.values[key]) for key in self.keys[begin:end][:limit]]

    def count(self, low, high, cap):
        return len(self.range(low, high, cap))

    def write(self, key, guard, held, new):
        found = self.values.get(key)
        if guard is Guard.ABSENT and found is not None or guard is Guard.IS and found != held:
            return False
        if found is not None:
            self.keys.remove(key)
            del self.values[key]
        if new is not None:
            bisect.insort(self.keys, key)
            self.values[key] = new
        return True
