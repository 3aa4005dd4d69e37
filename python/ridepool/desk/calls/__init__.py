"""The desk's calls over HTTP, by what they are about. Field names follow GOFS where it has them."""
