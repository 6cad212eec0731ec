"""A FASTA index library whose every answer is proved right, for Python.

>>> from wakeluri import Fasta, check
>>> fasta = Fasta("samples/two.fa")
>>> fasta["sq0"][1:3]
'CG'

Slices are as pyfaidx has them, but exact: one past the end raises, with the record's length. An index is checked against every base before
it is used. The work is done by a shared library of proved code (libwakeluri.so), which this package calls with ctypes: it needs no compiler
and no other package.
"""

from ._fasta import Fasta, Record, check, complement, reverse_complement
from ._refusal import Changed, NameUnknown, PastLength, Refusal, Refused, words

__all__ = [
    "Changed",
    "Fasta",
    "NameUnknown",
    "PastLength",
    "Record",
    "Refusal",
    "Refused",
    "check",
    "complement",
    "reverse_complement",
    "words",
]
__version__ = "0.1.0"
