# The compiler of an archive that counts (archive.sh puts the line that sets `real`, `counting` and `only` before this).
#
# rattle hands over module.bc, the proved program as LLVM code, with its flags. Here they are followed by the words that ask for
# counters, which come last, where they win; `only`, if it is not empty, is a file that says of which functions. A flag that the
# counters leave unused is no error.
set -eu

wanted=
for word in "$@"; do
    shift
    case $word in
    -Werror) continue ;;
    module.bc) wanted=yes ;;
    esac
    set -- "$@" "$word"
done
if [ -n "$wanted" ]; then
    # shellcheck disable=SC2086
    set -- "$@" $counting ${only:+"-fsanitize-coverage-allowlist=$only"}
fi
exec "$real" "$@"
