"""The programs of tools/, a module each: `main` takes the arguments and answers the status, `run` ends the process with
it."""
