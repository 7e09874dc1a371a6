"""Checks of the model against the values and the laws of document 01."""
