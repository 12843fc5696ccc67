"""The language of workflows, as GitHub's documentation says it. Nothing here reads a file or speaks to anyone."""
