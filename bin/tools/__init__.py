"""What the tools beside the compiler are made of: a module for each thing that bin/explain knows to say."""
