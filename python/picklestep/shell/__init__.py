"""`picklestep shell FILE`: a prompt that steps through a pickle, looks at it and edits it. Nothing of it is run. The word is in `command`."""
