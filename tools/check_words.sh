#!/bin/sh
# Fails where a tracked file or a commit message cites a paper that is not part of the repository, or
# a numbered item of one. Every rule stands in docs/, in our own words.
set -eu
cd "$(dirname "$0")/.."

numbered='\b(document|doc|paper|demand|request|req)s?\.? *(no\.?|number|#)? *0*[0-9]{1,3}\b'
named='\b0[12]-(scop[e]|chang[e])|\b90-rattl[e]|\bBLUEPRIN[T]\b|\bshare[d]/|\bas the scop[e] says\b'
found=0

if git grep -nIEi -e "$numbered" -e "$named" -- .; then
    echo "check_words: a tracked file cites a paper" >&2
    found=1
fi
if git log --format='%h %s%n%b' 2>/dev/null | grep -nEi -e "$numbered" -e "$named"; then
    echo "check_words: a commit message cites a paper" >&2
    found=1
fi
[ "$found" -eq 0 ] && echo "check_words: no citations"
exit "$found"
