"""The parts of ./brumerola.

What is accepted, refused, chosen, met and broken is what the proved listing program printed; the parts read it, name it and draw it."""
