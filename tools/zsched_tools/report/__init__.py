"""What only the command zsched-report uses."""
