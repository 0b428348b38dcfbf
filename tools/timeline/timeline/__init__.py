"""A timeline of a printed run of `ucos3`: a page, a trace, a waveform and a table. See docs/TIMELINE.md."""
