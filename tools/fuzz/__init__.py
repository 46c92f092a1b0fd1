"""The parts of tools/fuzz_containers.py: inputs made by chance, and what the formats' text says of each."""
