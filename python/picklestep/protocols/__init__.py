"""`picklestep convert FILE --protocol N`: a pickle in the opcodes of another protocol, which makes the same values. The word is in `converting`."""
