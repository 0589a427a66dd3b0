"""Models: their language and formulas, how they are sampled and put into whole numbers, and the noise that bounds what
this loses."""
