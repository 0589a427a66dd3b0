"""Pictures and films by matplotlib: cells along one to three states, runs, and what a log leaves unexplained."""
