"""The rows of a campaign: one a run, in a file of SQLite, written as each run ends. A later call goes on from them."""
from campaigns.tables import Table

KEY = ["program", "image", "machine", "replicas", "drivers", "scrub", "pattern", "count", "width", "kinds", "seed", "number"]
DRAWN = ["faults", "kind", "place", "register", "bit", "address", "section", "symbol", "moment"]
JUDGED = ["fate", "vote", "latency", "struck", "few", "status", "answer", "trouble"]


class Rows(Table):
    def __init__(self, path):
        super().__init__(path, "runs", KEY, DRAWN + JUDGED)

    def fates(self, campaign):
        """The fates and troubles of a campaign's runs, each with how many there are."""
        return self.base.execute(
            f"select fate, trouble, count(*) from runs where {self.of_campaign()} group by fate, trouble", campaign)

    def points(self, patterns):
        """Of the campaigns under these patterns: program, replicas, pattern, faults a run, steps from scrub to scrub; how many runs
        there are, in how many the strikes stayed few, and by fate how many, of all and of those in which they stayed few."""
        what = "program, replicas, pattern, count, scrub"
        places = ", ".join("?" * len(patterns))
        found = {}
        for *point, few, fate, runs in self.base.execute(
                f"select {what}, few, fate, count(*) from runs where pattern in ({places}) and machine = 'replicated' "
                f"group by {what}, few, fate", patterns):
            found.setdefault(tuple(point), []).append((few, fate, runs))
        return dict(sorted(found.items()))
