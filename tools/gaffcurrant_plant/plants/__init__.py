"""Plants: their texts and equations, units, cells, successor boxes, limits, and how many edges they have."""
