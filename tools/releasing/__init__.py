"""The parts of tools/release and tools/check-release."""
