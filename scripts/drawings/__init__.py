"""The drawings of the pages, docs/pictures/*.svg, each by a module of its own. They are legible in a light and a dark
scheme, and on a phone."""
