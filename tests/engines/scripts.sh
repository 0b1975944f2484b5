#!/usr/bin/env bash
# Holds the reader and the printer of scripts to acorn, and to small engines where they are there.
source "$(dirname "$0")/acorn.bash"
hold_to_acorn scripts script_lines
