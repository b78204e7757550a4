"""Machines with cache lines: `lines` with the mend of late answers, `any_read` without, `oldest_read` with half of it.

They stand apart from the machines that memory models are named after: the first is another one of `tso`, and the others
are wrong on purpose.
"""
