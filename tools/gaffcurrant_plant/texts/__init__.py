"""What the program writes of a plant: rows, tables, stay and patrol texts, the loop that they close, and why cells have
no row."""
