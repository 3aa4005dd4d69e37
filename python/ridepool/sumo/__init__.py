"""The taxis of a SUMO simulation, dispatched by `ridepool live`."""
