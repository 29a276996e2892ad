"""What is true of two small texts, by trying everything."""
