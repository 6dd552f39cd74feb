"""The library of site_tools: plain Python 3, outside of what is proved.

Nothing in here runs a recipe, asks the network or reads what it was not told to read.
"""
