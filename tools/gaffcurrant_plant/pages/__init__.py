"""Pages for a browser: the data of texts and models, and the parts of the page."""
