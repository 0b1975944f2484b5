#!/usr/bin/env bash
# Compares the tokens of node's own library and of texts of modules with those of acorn.
source "$(dirname "$0")/acorn.bash"
hold_to_acorn lexer_tokens token_lines
