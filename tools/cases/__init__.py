"""Cases for a built program: they are written, run, and compared with what the slow program finds."""
