"""What tests/hostile consists of: what the program has to answer, how it is run, and a module for each part."""
