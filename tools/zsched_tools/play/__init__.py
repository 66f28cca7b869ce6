"""What only the command zsched-play uses."""
