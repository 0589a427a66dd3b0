"""Measured data: logs, whether a plant explains them, usual mistakes, ranges of disturbances, and broken promises."""
