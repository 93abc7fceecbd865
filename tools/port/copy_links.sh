#!/usr/bin/env bash
# usage: copy_links.sh ROOT : makes each link below ROOT/crates a copy of what it leads to (port.py and 'rt ci' refuse links).
set -eu
cd "$1"
find crates -type l | while read -r link; do
  cp --remove-destination "$(readlink -f "$link")" "$link"
  echo "copied: $link"
done
