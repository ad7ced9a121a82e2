"""Mutants of the store over PostgreSQL: each module changes one thing by `apply()`.

`FINDS` has the names of the faults; the verifier must find it by one of them. The record of its
nodes shows it too, unless `UNRECORDED` says why it cannot.

`MOMENT` is the moment of `moments.py` that reveals it each time. `STRIKES` is the kind of strike
that mostly reveals it, one of those of `kills_nodes.py`.
"""
