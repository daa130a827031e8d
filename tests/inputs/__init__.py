"""Inputs for the differential run: sound requests, and edits of them that reach every refusal number.

In order: shapes (the parts of a file, as they are before they become bytes), edits (one fault or harmless change each),
requests (one random request of each operation), borders (the few large requests at the limits), few_rounds and places
(the small requests of Items 3 and 8), cuts and recuts (what Items 9 and 13 cut, and where).
"""
