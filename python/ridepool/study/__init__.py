"""Studies: which days one has, what they are made of, what is kept of them."""
