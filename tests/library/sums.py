"""The sums of examples, in pence: a small credit and a large one. Both are far from the figure of small credits and from every
other limit, so that no example changes its meaning when a figure changes. tests/documents/figures.py compares them."""

SMALL, LARGE = 5_000, 50_000
