"""Second readers and a second recorder of what foz reads and writes, from docs/format.md alone.

They say what foz has to answer, never by asking foz: archive (files and entries), jsons (JSON texts), states (structures,
words, hashes, what is written of a state), fields (what is read of a structure), payloads (what an entry holds), lines (captures),
spirv and driver (the shipped driver), replay (`check`), recorder (`put` and `record`), frames (`worker`). Each command is a function
that gives a run: the status, the output and the errors.
"""
