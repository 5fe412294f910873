"""What the scripts of tests/ share: how they run the program, make inputs, refuse calls, and count."""
