"""Printed reports: their reader, what a day's report tells in numbers, and the script whose run it is."""
