"""What only the command zsched-plan uses."""
