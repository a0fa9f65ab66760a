"""What bin/believe is made of: how definitions and types of the code are read, and what they name."""
