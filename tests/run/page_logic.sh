#!/bin/sh
# Whether rt has the logic that the README, or the page that is named, says all was last proved with. The kit's name
# says nothing: another one may have proved it. Ends with status 0 where it has.
top=$(CDPATH='' cd -- "$(dirname -- "$0")/../.." && pwd) || exit 1
# shellcheck disable=SC2016 # the README's own marks
wanted=$(sed -n 's/^The kit that last proved all crates is `.* \(logic .*\)`\.$/\1/p' "${1-"$top/README.md"}")
found=$(rt version | sed 's/^[^ ]* //')
if [ "$wanted" = "$found" ]; then
    echo "ok      $found"
else
    echo "FAILED  the README names $wanted, and rt has $found"
    exit 1
fi
