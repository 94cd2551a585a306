"""Pictures of the program's inside, as SVG, each made of the sources that it shows; `tools/documents` writes them."""
