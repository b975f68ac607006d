#!/usr/bin/env bash
# Runs `osdp-port --live` at a pseudo terminal, and prints what a person sees there. Takes the path of the program.
program=$(cd "$(dirname "$1")" && pwd)/$(basename "$1")
cd "$(dirname "$0")" && timeout 100 /usr/bin/python3 -B live.py "$program"
