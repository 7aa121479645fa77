"""Random programs, and executions of their procedures."""
