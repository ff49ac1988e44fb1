"""Proofs of crates side by side, each in a copy of its own: bin/build-below and bin/dearest.

rooms    which crates stand below one, and a copy in which a crate is proved beside what was built of those
lanes    libraries proved and built side by side, the longest chain first
dearest  the processor seconds of each function's proof
"""
