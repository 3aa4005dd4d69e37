"""Pictures of a report: a day of vehicles, the service of its batches, the map of one batch; and a study's figures."""
