"""Morphological reconstruction, and sessions of seed strokes.

Arrays
    `reconstruction`, `fill_holes`, `h_maxima_reconstruction`, `regional_maxima`

Strokes over a picture
    `Session`, `Stroke`, `strokes_from_labels`, `seed_from_labels`

Errors
    `Fault`, which has a code and a sentence

The library behind these is proved: what a function answers is what its
definition says. This package around it is tested, and not proved.
"""

from seedpaint.deriving import fill_holes, h_maxima_reconstruction, regional_maxima
from seedpaint.errors import Fault
from seedpaint.growing import reconstruction
from seedpaint.session import Session
from seedpaint.strokes import Stroke, seed_from_labels, strokes_from_labels

__version__ = "0.1.0"

__all__ = [
    "Fault",
    "Session",
    "Stroke",
    "fill_holes",
    "h_maxima_reconstruction",
    "reconstruction",
    "regional_maxima",
    "seed_from_labels",
    "strokes_from_labels",
]
