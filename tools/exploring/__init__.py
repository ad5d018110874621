"""What tools/check_exploring compares explore with: an enumeration that shares no code with it, and random programs."""
