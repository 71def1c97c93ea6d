# verdict [FILE]: judges the trace in FILE, or on standard input (also `-`), as it comes and of any length; at the end of the
# input it prints number, place and Steps. verdict --version: the version.
# Exit status 0 where a verdict was printed, whatever it says; 2 on usage, and where something could not be built, read or
# written. The program itself ends with 0 where it could not read, and with 1 where it could not write: so its line is taken here.
#
# What ./verdict and the verdict of a release share. A script that sources it, behind tell.sh, has two functions: `ready`, before
# the program is first needed, and `start_program`.
# shellcheck shell=sh

usage() {
    echo 'usage: verdict [FILE | -]' >&2
    echo '       verdict --version' >&2
    exit 2
}

judge() {
    file=$1
    [ "$file" = - ] || [ -r "$file" ] || give_up "cannot open $file"
    ready
    [ "$file" = - ] || exec <"$file"
    line=$(start_program) || give_up 'the program could not be run'
    [ -n "$line" ] || give_up 'the program printed nothing'
    printf '%s\n' "$line" || give_up 'the verdict could not be written'
    [ "$line" != 'CANNOT READ' ] || exit 2
}

main() {
    case $#:${1-} in
    1:-h | 1:--help) usage ;;
    1:--version) tell_version ;;
    0: | 1:*) judge "${1--}" ;;
    *) usage ;;
    esac
}
