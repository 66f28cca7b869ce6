"""What only the command zsched-follows uses."""
