"""Where the ports of the service are, and who reaches them."""
