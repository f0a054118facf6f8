"""Questions and their replies as pictures, pages and maps.

`replies` reads them; `plot` draws them as an SVG or as a page (`drawing`, `labels`, `page`), over coasts where some are given (`coasts`);
`maps` writes them as GeoJSON, GPX or CSV; `first_hits` makes one reply of those to several lines.
"""
