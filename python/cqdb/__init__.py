"""Constant quark database (CQDB) images: names to ids and ids to names, over a shared library whose functions are proved.

>>> import cqdb
>>> writer = cqdb.Writer()
>>> writer.put("north wall", 0)
>>> writer.put("crane", 1)
>>> catalogue = cqdb.Catalogue(writer.close())
>>> catalogue["crane"], catalogue.ids[0]
(1, 'north wall')
>>> writer.put("crane", 2)
Traceback (most recent call last):
    ...
cqdb.refusal.CQDBError: the writer already holds this name, and repeats are off (refusal 16)

What is proved is the library; this module is tested. docs/FORMAT.md of the repository describes images and refusals.
"""
from cqdb.build import Built, build
from cqdb.bundle import Bundle
from cqdb.catalogue import Catalogue
from cqdb.changes import Change
from cqdb.check import Check
from cqdb.dates import Window
from cqdb.ids import Ids
from cqdb.one_to_one import Mismatch, OneToOne
from cqdb.preflight import Preflight, preflight
from cqdb.refusal import CQDBError, Refusal
from cqdb.sheet import Sheet
from cqdb.version import __version__
from cqdb.writer import Writer

__all__ = [
    "Built",
    "Bundle",
    "CQDBError",
    "Catalogue",
    "Change",
    "Check",
    "Ids",
    "Mismatch",
    "OneToOne",
    "Preflight",
    "Refusal",
    "Sheet",
    "Window",
    "Writer",
    "__version__",
    "build",
    "preflight",
]
