"""Pages in HTML, each one file without scripts."""
