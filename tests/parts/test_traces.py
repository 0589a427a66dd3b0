"""`sim` on each example's table, from its farthest cell under ten seeds: each run arrives within the rank of its first
row."""

from gaffcurrant_plant.texts.table import read_table

from .tool_case import ToolCase

SEEDS = range(10)


class Traces(ToolCase):
    """Runs of the program's simulator."""

    def test_runs_arrive_in_time(self):
        for name in self.examples():
            text = self.table_text(name)
            table = text and read_table(text)
            if table and table.plant.goal == "reach":
                for seed in SEEDS:
                    what = f"{name}: run of seed {seed} from the farthest cell"
                    self.equal(what, "arrived in time", self.outcome(text, table, seed))

    def outcome(self, text, table, seed):
        """Drives the plant from the least or the greatest point of the cell of greatest rank: what became of it."""
        cell = max(table.rows, key=lambda one: table.rows[one][0])
        start = table.plant.high(cell) if seed % 2 else table.plant.low(cell)
        status, trace, error = self.execute(("sim", "1000000", str(seed), *map(str, start)), text)
        if status:
            return f"status {status}: {error!r}"
        lines = [line.split(" ") for line in trace.decode().splitlines()]
        rank, last = int(lines[1][-2]), lines[-1]
        is_in_time = last[0] == "arrived" and int(last[1]) <= rank == table.rows[cell][0]
        return "arrived in time" if is_in_time else f"rank {rank}: {last}"
