"""How files, places, nodes and tests are named, quoted, wrapped and written, for all tools."""
