"""What only the command zsched-explain uses."""
