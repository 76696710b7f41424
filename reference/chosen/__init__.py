"""The vectors that are chosen by hand, one module for each file of vectors/. Each has NAME, FLAGS and a function groups()."""
