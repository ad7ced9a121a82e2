"""Mutants of workers: each module changes one thing by `apply()`.

`FINDS` is the name of the fault by which the verifier must find it. `STRIKES` is what reveals it:
`run`, sagas without faults, with the witness and the verifier; `call`, a look at the broker while
the function runs; `store`, a look at it when the store could not be written.
"""
