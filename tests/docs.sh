#!/usr/bin/env bash
# Compares the pages with what they name, by tests/docs.py: what they quote of a file with the file; each link, file,
# module, definition and clause with the sources; the numbers of docs/TESTING.md; the crates in
# docs/ARCHITECTURE.md, with how many a change proves again; the fault codes in docs/FAULTS.md, and in the cases that list
# all codes, with the definitions; the options in the manual pages, and of each command on a page, with the sources (with
# the completions tests/package.sh compares them); how many lines a file has, and the adaptors over the system; the
# logic's number and the version of Unicode with the files and the toolchain; the files of cases with those that are run.
# Each page, and the answers that readers look for first, are found within three pages from README.md, a link leads to the
# heading that it names, and lines have 120 characters at most. The lists of docs/generated are those that tools/generate
# makes of the sources.
#
# usage: tests/docs.sh [PROGRAM]
#
# PROGRAM isn't used: it is taken since each script takes one. It needs Python. Of what is stale each name is printed,
# and a kind of name that was found nowhere is an error too. Without rt the numbers of the toolchain aren't compared, and
# the last line says so.
set -euo pipefail
source "$(dirname "$0")/common.sh"
needs python3
enter docs

cp -r "$root/docs/generated" .
"$root/tools/generate" generated
diff -r "$root/docs/generated" generated || give_up 'docs/generated has other lists than tools/generate makes'
items() { # PAGE FORM LEAST: how many items of a list a page has
    local found
    found=$(grep -cE "$2" "generated/$1.md") || true
    ((found >= $3)) || give_up "docs/generated/$1.md: $found items of its list were found"
    echo "$found"
}
listed=$(items READING '^[0-9]+\. \[.*/specs/.*\.antt\), [0-9]+ lines' 50)
indexed=$(items DEFINITIONS '^\[`\w+`\]\(.*/specs/.*\.antt\)$' 1000)
laws=$(items LAWS '^- `\w+`: ' 80)
calls=$(items CALLS '^- \[`[A-Z]?\w+(::\w+)?`\]\(.*\.rt\): ' 300)
tests=$(items TESTS '^- \[.*\.(sh|cases)\]\(.*\): .' 60)
figures=$(items FIGURES '^\| `.*` \| ' 30)

python3 "$root/tests/docs.py" "$root" >compared || { cat compared; give_up 'pages name what is not there'; }

kit=
command -v rt >/dev/null || kit='; there is no rt here, so the numbers of the toolchain were not compared'
echo "the pages name what is there ($(tail -n 1 compared)); reading lists of $listed pages, an index of $indexed" \
    "definitions, $laws laws, $calls calls, $tests tests and $figures figures are what tools/generate makes$kit"
