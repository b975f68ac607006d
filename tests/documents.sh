#!/usr/bin/env bash
# Holds the documents to the tree: what they name must be there, each public law must be told, and the first pages must be short.
exec python3 "$(dirname "$0")/documents.py"
