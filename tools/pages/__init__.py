"""The parts of tools/check-pages."""
