"""What lanes wait for: so many notes of an event for a name."""

from collections import Counter

# At which word of a note of an event the name stands.
NAME_PLACES = {"running": 1, "open": 3, "closed": 2, "paused": 1, "resumed": 1}
NAME_PLACES |= {"tuple": 1, "rtp": 1}


class Awaits:
    def __init__(self):
        self.waiting = []
        self.noted = Counter()
        # The names that calls were to make which have come to another outcome than `ok`.
        self.failed = set()

    def hear(self, note):
        words = note.split(" ", 4)
        place = NAME_PLACES.get(words[0])
        if place is not None:
            self.noted[words[0], words[place]] += 1

    def add(self, key, entry):
        self.waiting.append((key, entry))

    def settle(self, host):
        """Those that have what they wait for, or can't have it any more, settle in order."""
        waiting, self.waiting = self.waiting, []
        for key, entry in waiting:
            if self.noted[entry.event, entry.name] >= entry.count:
                host.settle(key, "ok")
            elif self.is_hopeless(host, entry.name):
                host.settle(key, "missed")
            else:
                self.waiting.append((key, entry))

    def is_hopeless(self, host, name):
        thing = host.tree.named(name)
        if thing is not None:
            return not thing.is_open
        return name in self.failed and name not in host.requests.names
