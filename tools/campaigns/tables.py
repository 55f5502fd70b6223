"""Rows in a file of SQLite, each written as its run ends, so that a later call goes on from them."""
import collections
import csv
import sqlite3


class Table:
    """A row has a key, of which the last column is the number of its run, and other columns."""

    def __init__(self, path, name, key, others):
        """Of a file, or of memory alone where there is none."""
        self.name, self.key, self.columns = name, key, key + others
        self.row = collections.namedtuple("Row", self.columns)
        self.base = sqlite3.connect(path or ":memory:")
        self.base.execute("pragma synchronous = off")  # rows outlive a campaign that is killed, and need not outlive the system
        self.base.execute(f"create table if not exists {name} ({', '.join(self.columns)}, primary key ({', '.join(key)}))")
        self.base.commit()

    def has_columns(self):
        """Whether the file's table is one of this form."""
        return [name for _, name, *_ in self.base.execute(f"pragma table_info({self.name})")] == self.columns

    def of_campaign(self):
        """The condition that a row is one of a campaign, which is all of the key but the number."""
        return " and ".join(f"{name} = ?" for name in self.key[:-1])

    def numbers(self, campaign):
        """The numbers of the runs of a campaign that are there."""
        found = self.base.execute(f"select {self.key[-1]} from {self.name} where {self.of_campaign()}", campaign)
        return {number for number, in found}

    def add(self, row):
        """A run that ended. It is in the file when this returns."""
        with self.base:  # which is rolled back at an interrupt
            self.base.execute(f"insert or replace into {self.name} values ({', '.join('?' * len(self.columns))})",
                              [row.get(name) for name in self.columns])

    def every(self):
        """All rows, in the order of their keys."""
        yield from map(self.row._make, self.base.execute(f"select * from {self.name} order by {', '.join(self.key)}"))

    def write_csv(self, path):
        with open(path, "w", newline="") as file:
            writer = csv.writer(file, lineterminator="\n")
            writer.writerow(self.columns)
            writer.writerows([one_line(value) for value in row] for row in self.every())


def one_line(value):
    """Of several lines, as those of a fault list, one whose parts stand behind each other."""
    return "; ".join(value.splitlines()) if isinstance(value, str) else value
