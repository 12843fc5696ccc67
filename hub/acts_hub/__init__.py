"""The program around the service acts: sign-in, runners on other hosts, logs, times, pages, the API of GitHub."""
__version__ = '0.1.0'
