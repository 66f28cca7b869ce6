"""What only the command zsched-outage uses."""
