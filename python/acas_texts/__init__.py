"""What the program takes for a model, for boxes, for an encounter, and `study/run` for a study; and what is wrong with other texts.

It needs no package, so that `schema/validate` needs none. A fault has the words of the program.
"""
from acas_texts.fault import Cause, Fault

__all__ = ["Cause", "Fault"]
