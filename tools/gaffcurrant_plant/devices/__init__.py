"""Texts for devices: a C header, structured text, and a function of MATLAB."""
