"""x10c: a compiler from a subset of X10 to the assembler text of x10p. docs/X10-SUBSET.md describes the subset."""
