#!/bin/sh
# Renders the manual pages and fails where the renderer warns. It takes mandoc, man or groff, whichever is there; with none
# of them it says so and passes. Usage: man/check.sh
cd "$(dirname "$0")" || exit 1
for page in *.1 *.5; do
    if command -v mandoc >/dev/null; then
        said=$(mandoc -T lint -W warning "$page" 2>&1)
    elif command -v man >/dev/null; then
        said=$(LC_ALL=C.UTF-8 MANWIDTH=80 man --warnings -l "./$page" 2>&1 >/dev/null)
    elif command -v groff >/dev/null; then
        said=$(groff -mandoc -ww -z "$page" 2>&1)
    else
        echo "$page: not rendered: there is no mandoc, man or groff"
        continue
    fi
    if [ -n "$said" ]; then
        echo "$page: $said"
        exit 1
    fi
    echo "$page: rendered without a warning"
done
