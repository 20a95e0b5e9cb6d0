"""The bridge from Maude: what `from-maude` is made of."""
