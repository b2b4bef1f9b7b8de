"""`picklestep dap`: the shell's pickle, as editors step through a program. It speaks the Debug Adapter Protocol."""

from .command import main

__all__ = ['main']
