"""What ./ltlspin is made of."""
