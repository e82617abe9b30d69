"""Schemas of other people, of earlier drafts and in several files, as one that the store reads."""
from .schema import Adapted, Change, Schema

__all__ = ["Adapted", "Change", "Schema"]
