"""What looks into containers, a module for each kind or several: by the strict reader of `canonical`, else by the lenient ones.

`containers` has the kinds, each with the function here that opens it: it takes the looker and the bytes that are held, and answers False
where they only begin like a container.
"""
