"""The operator's command: a list of reads in; windows, reasons in sentences and pictures out (docs/BENCH.md)."""

from .command import command

__all__ = ["command"]
