"""The commands that the active area of a store's file has, read by docs/FORMATS.md ("An area of a journal", "Stored commands and tables").

A command is a tuple of its word and its fields, as `sweeps/compared/plain.py` takes them.
"""

RESULTS = {1: b'success', 2: b'failure', 3: b'cancelled'}
OPEN = 0xA5


class Reading:
    """Bytes, and how far they have been read."""

    def __init__(self, data):
        self.data, self.at = data, 0

    def take(self, count):
        self.at += count
        return self.data[self.at - count:self.at]

    def number(self, size=4):
        return int.from_bytes(self.take(size), 'big')

    def text(self):
        return self.take(self.number())

    def command(self):
        word = self.number(1)
        if word == 1:
            return 'admit', self.text(), self.text(), self.text()
        if word == 2:
            name, number = self.text(), self.number()
            return 'claim', name, number, b','.join(self.text() for _ in range(self.number()))
        if word == 3:
            return 'done', self.text(), self.number(), self.number(), RESULTS[self.number(1)]
        if word == 4:
            return 'beat', self.text(), self.number()
        if word in (6, 13):
            return {6: 'lost', 13: 'discharge'}[word], self.text()
        if word == 9:
            return 'rerun', self.number(), self.number()
        return {5: 'cancel', 7: 'look', 8: 'fetch', 12: 'forget'}[word], self.number()


def generation(area):
    """The generation of an area whose gate is open, or 0."""
    return int.from_bytes(area[2:10], 'big') if area[0] == OPEN else 0


def commands(path):
    """The commands after the table of the active area, in their order, and that table's bytes."""
    with open(path, 'rb') as file:
        data = file.read()
    area = max(data[:len(data) // 2], data[len(data) // 2:], key=generation)
    reading, found = Reading(area), []
    reading.at = 10
    table = reading.take(reading.number(8))
    while reading.take(1)[0] == OPEN:
        record = Reading(reading.text())
        found += [record.command() for _ in range(record.number())]
    return found, table
