"""What only the command zsched-try uses."""
