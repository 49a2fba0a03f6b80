"""A report on a drive: one HTML file that an editor files with the job. It needs no other file and no network."""

from .job import Job
from .page import report

__all__ = ["Job", "report"]
