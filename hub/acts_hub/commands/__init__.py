"""The commands of acts-hub, one module each, with `add(parsers)`: a module that is named here and is there is a command."""
