"""Reachvolem from Python: clusters of lamps for every zoom, by the proved library. Standard library only.

The build, the tables, the owners and the answers are the compiled library's, whose functions are proved; how it is called, the words of
refusals and the latitudes are Python, and tested.
"""
from .index import Index
from .library import NoLibrary
from .mercator import latitude, longitude, mercator_y
from .options import SERVICE, DataRange, Options
from .refusals import Refused
from .supercluster import Effort, Entry, Supercluster, TileItem

__all__ = [
    "DataRange", "Effort", "Entry", "Index", "NoLibrary", "Options", "Refused", "SERVICE", "Supercluster", "TileItem", "latitude",
    "longitude", "mercator_y",
]
