"""Draws what `acas` makes and prints. The command is `python/acas_plot`."""
