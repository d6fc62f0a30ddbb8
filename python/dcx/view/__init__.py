"""An answer to look at: one page of HTML, which needs no other file and no network."""
from __future__ import annotations

from .asking import Found, found
from .page import page

__all__ = ["Found", "found", "page"]
