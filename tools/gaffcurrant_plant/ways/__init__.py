"""Ways between samples, in doubles: runs of a model, spans, enclosures, and obstacles that are widened until no way
touches one."""
