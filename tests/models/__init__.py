"""What the program must give, written anew from the documents. Nothing here runs the program or shares code with it."""
