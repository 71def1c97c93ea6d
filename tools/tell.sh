# What a script says: what goes wrong, under its own name, and its version. Sourced by the scripts of the project and by those
# of a release, which set $root to the folder that has VERSION.
# shellcheck shell=sh disable=SC2154

say() { printf '%s\n' "$*" >&2; }

# tell WORD...: says something under the script's own name.
tell() { say "${0##*/}: $*"; }

# give_up WORD...: tells why, and ends the script.
give_up() {
    tell "$@"
    exit 2
}

# tell_version: what --version of a script prints, in the form of the C programs (host/edition.c).
tell_version() {
    IFS=. read -r document request release <"$root/VERSION" || give_up 'cannot read VERSION'
    printf '%s %s.%s.%s (rules: document %02d with requests 1 to %d)\n' \
        "${0##*/}" "$document" "$request" "$release" "$document" "$request" || give_up 'the version could not be written'
}
