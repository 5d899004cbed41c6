#!/bin/sh
# A fake program for the tests of the scripts: whatever it is asked, it answers 'valid' in the right form, and looks at
# no schema. A check has the text of its format, each test of a suite passes, and documents have a place each.
command=$1
[ $# -eq 0 ] || shift
[ "$1" != -- ] || shift
case $command-$1 in
suite-*)
    exec python3 - "$1" <<'SUITE'
import json, sys
with open(sys.argv[1], encoding="utf-8", errors="replace") as file:
    names = [(g, t, it["description"]) for g, group in enumerate(json.load(file)) for t, it in enumerate(group["tests"])]
for g, t, name in names:
    print(f"pass {g}.{t} {json.dumps(name)}")
print(f"passed {len(names)}, failed 0, skipped 0")
SUITE
    ;;
places-*)
    while [ $# -gt 0 ]; do
        echo "$1#"
        shift 2
    done
    ;;
check-basic) echo '{"annotations":[],"valid":true}' ;;
check-flag | -*) echo '{"valid":true}' ;;
*) echo '{"absoluteKeywordLocation":"https://a.example/s#","instanceLocation":"","keywordLocation":"","valid":true}' ;;
esac
