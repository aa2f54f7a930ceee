"""A session at a terminal for one person: `bin/yarrow prove SPEC`, over the rounds of `replay`.

Nothing here is trusted. These modules type lines and paint replies; each line that they keep is a line of a session, so what
was saved runs without them."""
