"""Days by an own policy: what a policy is told, which plans are lawful, and the simulation that drives the vehicles."""
