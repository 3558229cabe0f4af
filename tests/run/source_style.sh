#!/bin/sh
# Checks the scripts by shellcheck (.shellcheckrc), flake8 and mypy (setup.cfg). A tool that is missing is left out by
# name. The status is 1 if one of them has a finding.
cd "$(dirname "$0")/../.." || exit 1
. tests/lib/expect.sh
# shellcheck disable=SC2046 # names of files
has "the style of the scripts in sh" shellcheck && { shellcheck check respath origins release program.sh \
    $(find tests bench foreign packaging vectors -name '*.sh') || fail shellcheck; }
has "the style of the scripts in Python" flake8 && { flake8 tests bench || fail flake8; }
has "the types of the scripts in Python" mypy && { mypy tests/run/*.py tests/misuse/run.py bench/*.py || fail mypy; }
exit "$failed"
