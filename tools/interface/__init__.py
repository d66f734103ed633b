"""What the headers and the table of calls declare, and what is written from them."""
