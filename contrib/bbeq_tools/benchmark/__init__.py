"""Pairs with known answers, drawn with a fixed seed, and what the program takes for them."""
