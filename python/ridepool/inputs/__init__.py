"""What a day is made of: networks, fleets, requests, and the files that they stand in."""
