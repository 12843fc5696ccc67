"""What the service does not keep: SQLite, and files."""
