"""What tests have to reach, by title, and how often they did."""

import collections

from shared.tally import Failed

MOST_SHOWN = 40  # names with their counts in a report; of a longer list the rarest is told


def cover(wanted, reached):
    if not wanted:
        raise Failed("nothing has to be reached")
    missing = sorted(set(wanted) - set(reached))
    if missing:
        raise Failed(f"not reached: {missing}")


class Coverage:
    """`wanted`: the names by title. If it is complete, any other name is wrong as well."""

    def __init__(self, wanted, is_complete):
        self.wanted = wanted
        self.is_complete = is_complete
        self.counts = collections.defaultdict(collections.Counter)

    def note(self, title, name):
        self.counts[title][name] += 1

    def cover(self, title):
        """Tells how often each was reached; fails if one never was."""
        wanted, counts = self.wanted[title], self.counts[title]
        if not wanted:
            raise Failed("nothing has to be reached")
        missing = [name for name in wanted if counts[name] == 0]
        if missing:
            raise Failed(f"never reached: {'; '.join(missing)}")
        unknown = sorted(set(counts) - set(wanted))
        if unknown and self.is_complete:
            raise Failed(f"reached, and cannot be: {'; '.join(unknown)}")
        if len(wanted) > MOST_SHOWN:
            rarest = min(wanted, key=lambda name: counts[name])
            return f"all {len(wanted)}; the rarest, {rarest}: {counts[rarest]}"
        return ", ".join(f"{name}: {counts[name]}" for name in wanted)

    def test(self, tally, part=""):
        """One test a title; `part` tells which of several coverages it is."""
        for title in self.wanted:
            tally.test(f"coverage{part}: {title}", lambda: self.cover(title))
