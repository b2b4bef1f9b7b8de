"""A policy: what a team allows for which files, what it takes until when, and what it knows already."""
