"""acts-hub up: a service, a hub and a runner with one command."""
