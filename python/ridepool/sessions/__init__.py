"""A running `ridepool live`: its process, its rows, and the state that they come to."""
