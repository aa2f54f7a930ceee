"""What surrounds the proved program for people: refusals in sentences, with the place that they speak of.

Nothing here is trusted. The program alone says what holds; these modules ask it, and explain its answers."""
