"""A dispatcher's desk around a running `ridepool live`: a page with a map, and calls over HTTP."""
