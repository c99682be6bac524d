#!/usr/bin/env bash
# Proves and builds the program deskcheck, and runs it on an example session.
set -eu
cd "$(dirname "$0")/.."
tools/program.sh deskcheck >&2
target/bin/deskcheck < examples/first.session
