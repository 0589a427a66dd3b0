"""Texts of five cells that are worked out by hand, and what is refused where they are damaged."""

# A carriage that comes to the last of five cells and stays there, and one that calls at two cells at each end in turn.
PLANT = "plant 1\nstate x 0 14 3\ninput u -3 0 3\nnext x = x + u\ntarget 12 14\ngoal reach\nend\n"
STAY = f"stay 1\n{PLANT}rows 5\n0 0 4 2\n1 1 3 2\n2 2 2 2\n3 3 1 2\n4 4 0 1\nend\n"
ENDS = PLANT.replace("-3 0 3", "-3 3").replace("target 12 14", "target 0 5\ntarget 9 14")
PATROL = (
    f"patrol 1\n{ENDS}turn 0 rows 4\n0 0 1 1\n1 2 1 0\n3 3 2 0\n4 4 3 0\n"
    "turn 1 rows 4\n0 0 3 1\n1 1 2 1\n2 3 1 1\n4 4 1 0\nend\n"
)

# A text, what is replaced in it, by what, the line that is refused, and a part of the reason.
DAMAGED = [
    (STAY, "stay 1", "stay 2", 1, "begins with `table 1` or"),
    (STAY, "stay 1", "table 1", 10, "CELL RANK INPUT"),
    (STAY, "4 4 0 1", "4 4 0 -", 14, "an input"),
    (STAY, "0 0 4 2", "0 0 5 2", 10, "a rank"),
    (STAY, "0 0 4 2", "0 0 4 3", 10, "an input"),
    (STAY, "1 1 3 2", "1 1 4 2", 11, "goes on the one before"),
    (STAY, "rows 5", "rows 4", 14, "`end` is due"),
    (STAY, "rows 5", "rows 6", 9, "at most 5"),
    (STAY, "rows 5", "rows 05", 9, "`rows N` is due"),
    (STAY, "4 4 0 1\nend\n", "4 4 0 1\nend", 15, "`end` is due"),
    (STAY, "end\nrows", "rows", 8, "no keyword"),
    (STAY, "1\nend\n", "1\nend\nend\n", 16, "nothing follows"),
    (PATROL, "patrol 1", "patrol 2", 1, "`patrol 1`"),
    (PATROL, "turn 0", "turn 1", 10, "`turn 0 rows N` is due"),
    (PATROL, "0 0 1 1", "0 0 0 1", 11, "from 1"),
    (PATROL, "4 4 3 0", "4 4 6 0", 14, "from 1"),
    (PATROL, "turn 1 rows 4", "turn 1 rows 5", 20, "FIRST LAST"),
    (PATROL, "turn 1 rows 4", "end", 15, "`turn 1 rows N` is due"),
    (PATROL, "4 4 1 0\nend", "4 4 1 0\nturn 2 rows 0\nend", 20, "`end` is due"),
]
