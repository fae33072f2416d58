"""The parts of examples/page.py: `text` reads what a run wrote, `charts` draws, `markup` writes HTML, and `sections` are the page's."""
