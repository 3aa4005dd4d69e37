"""The parts of trail.py: definitions, Rust code, the order of reading, and what stands for now."""
