"""The two ranges of rides' numbers: small ones are the desk's to give, the others are callers' own."""

FIRST_OWN = 1_000_000
MOST = 1_000_000_000
