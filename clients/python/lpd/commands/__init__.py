"""The commands of python3 -m lpd, each a module with `add`, which says what words it takes, and `run`, which gives its status."""
