"""The command zsched-policy: the retry policies of other programs, as schedules."""
