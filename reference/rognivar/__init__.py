"""A second implementation of Rognivar, in plain Python.

It is written from the published definitions and from docs/, shares no code with the library, and is what the library is compared with.
"""
