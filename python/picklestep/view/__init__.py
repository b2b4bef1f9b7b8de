"""`picklestep view FILE`: the debugger in a browser, and reports as pages of their own. The word is in `command`."""
