"""What `checks/reached` is made of."""
