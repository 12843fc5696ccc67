"""The only place that speaks to the service."""
