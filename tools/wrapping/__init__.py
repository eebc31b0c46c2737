"""What tools/wrap consists of."""
