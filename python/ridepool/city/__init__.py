"""A city of many fleets: its vehicles are parted, each fleet is planned by a session of its own, and riders go from one to
another until a vehicle is promised."""
