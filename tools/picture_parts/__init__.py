"""The parts of tools/picture: texts are read, laid out and drawn."""
