#!/usr/bin/env bash
# Runs the program on the rows of tests/rows.
exec "$(dirname "$0")/rows.py"
