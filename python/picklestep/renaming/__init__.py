"""`picklestep rename OLD NEW FILE..`: imports get other names, in many files. Nothing of them is run. The word is in `command`."""
