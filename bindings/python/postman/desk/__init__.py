"""The desk: a page on the loopback interface for trying closings and costs. Its state is the library's open plan."""

from .server import DeskServer
from .state import Desk

__all__ = ["Desk", "DeskServer"]
