"""A page in the browser over the calendar change register: it passes lines to the program."""
from .application import create_app

__all__ = ["create_app"]
