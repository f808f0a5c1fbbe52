"""Damaged scripts, and what the program may say of them."""
