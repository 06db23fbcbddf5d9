"""What tools/try-program and tools/try-damaged are made of."""
