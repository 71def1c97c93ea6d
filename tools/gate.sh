# Whether the gate, ./test, has passed what stands here. Sourced by ./test, which marks it, and by ./release, which packs nothing
# else; both set $root. The mark names the tree of the commit, so that it holds for no other state of the files.
# shellcheck shell=sh disable=SC2154

gate_mark=$root/target/gate-passed

# in_clone ARGUMENT...: git, in the project's folder, which may belong to somebody else than who runs it.
in_clone() { git -c safe.directory='*' -C "$root" "$@"; }

# clean_tree: the tree of the commit, where the files are exactly its files; nothing else is printed.
clean_tree() {
    changed=$(in_clone status --porcelain 2>/dev/null) && [ -z "$changed" ] && in_clone rev-parse --verify -q 'HEAD^{tree}'
}

# gate_begins: no earlier gate counts from here on.
gate_begins() {
    rm -f "$gate_mark"
    gate_tree=$(clean_tree) || gate_tree=''
}

# gate_passes: marks the tree with which the gate began, if that still stands here.
gate_passes() {
    if [ -n "$gate_tree" ] && [ "$(clean_tree)" = "$gate_tree" ]; then
        mkdir -p "$root/target" && echo "$gate_tree" >"$gate_mark.new" && mv "$gate_mark.new" "$gate_mark"
    else
        echo 'not marked as passed for ./release: that is done for the files of a commit, unchanged from beginning to end'
    fi
}
