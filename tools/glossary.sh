#!/bin/sh
# Prints the definitions that the contracts cite, each with its comment: all of them, those of a crate, or those of a name. With
# `--check` it says instead which names of the documents aren't found in the sources. Needs python3.
exec python3 "$(dirname "$0")/glossary.py" "$@"
