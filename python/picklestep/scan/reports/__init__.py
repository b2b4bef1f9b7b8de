"""Reports for others: a page, a text, and the forms that CI servers read."""

from .findings import About, Findings, Row

__all__ = ['About', 'Findings', 'Row']
