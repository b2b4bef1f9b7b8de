#!/bin/bash
# What the GitHub action and the GitLab template run: `picklestep scan` with words from the environment.
#
#     PATHS, ALLOW                     one a line
#     POLICY, FAIL_ON                  as --policy and --fail-on
#     SARIF, REPORT, JUNIT, QUALITY    files to write
#
# The status is that of scan. On GitHub it is also an output, and the Markdown report stands in the summary of the job.

here=$(readlink -f -- "${BASH_SOURCE[0]}")
scan=("${here%/share/ci/*}/picklestep" scan --brief)
option() {
    [ -z "$2" ] || scan+=("$1" "$2")
}
option --policy "$POLICY"
option --fail-on "$FAIL_ON"
option --sarif "$SARIF"
option --report "$REPORT"
option --junit "$JUNIT"
option --code-quality "$QUALITY"
while IFS= read -r line; do
    option --allow "$line"
done <<<"$ALLOW"
paths=()
while IFS= read -r line; do
    [ -z "$line" ] || paths+=("$line")
done <<<"$PATHS"

"${scan[@]}" -- "${paths[@]}"
status=$?
[ -z "$GITHUB_OUTPUT" ] || echo "status=$status" >>"$GITHUB_OUTPUT"
if [ -n "$GITHUB_STEP_SUMMARY" ] && [ -f "$REPORT" ] && [[ $REPORT == *.md ]]; then
    cat -- "$REPORT" >>"$GITHUB_STEP_SUMMARY"
fi
exit "$status"
