# How to prove, compile, link and run, on either kind of processor. Sourced by the scripts, which set $root.
#
# The archive is x86-64 code. The kit brings a compiler, a linker and a C library for it and, where it is one for Arm, an emulator.
# It has no C headers: they come from the machine's packages. What is missing is installed, by package name, when it is first needed.
# shellcheck shell=sh disable=SC2154

. "$root/tools/tell.sh"

command -v rt >/dev/null || give_up "the Rattle kit's rt is not on the path"
guide=$(rt doc </dev/null) || give_up "the Rattle kit's rt on the path does not work"
[ -f "$guide" ] || give_up "the Rattle kit's rt on the path names no guide (rt doc), so its kit cannot be found"
kit=$(dirname -- "$guide")
tools=$kit/toolchain
emulator=
[ ! -x "$tools/bin/qemu-x86_64" ] || emulator=$tools/bin/qemu-x86_64
# The kit's own programs are x86-64 too, but in one that has an emulator.
{ [ -d "$tools" ] && { [ -n "$emulator" ] || [ "$(uname -m)" = x86_64 ]; }; } ||
    give_up "the Rattle kit at $kit has nothing for this machine, $(uname -m)"
target=x86_64-unknown-linux-gnu
archive=$root/target/staticlib/libconsole.a
verdict=$root/target/bin/verdict
decisions=$root/target/bin/decisions
built=$root/target/host

# The console and the record program, which their scripts and ./test build; of their files, those of the page, those that find
# words and pictures for a trace, those that read files and those that print.
page_sources='host/page.c host/timeline.c host/picture.c host/columns.c host/listing.c host/count.c'
wording_sources='host/tell.c host/name.c host/status.c host/phrases.c host/done.c'
telling_sources="$wording_sources $page_sources"
reading_sources='host/input.c host/line.c'
printing_sources='host/output.c host/complain.c host/edition.c'
console_sources="host/console.c host/list.c host/judge.c host/arrival.c host/totals.c host/progress.c"
console_sources="$console_sources host/instructions.c host/log.c $reading_sources $printing_sources $telling_sources"
record_sources="host/recorder.c host/script.c host/token.c host/vocabulary.c"
record_sources="$record_sources $reading_sources $printing_sources $wording_sources"

# What everything is compiled with, by whichever compiler.
strict='-std=c11 -Wall -Wextra -Wconversion -Wshadow -Werror'

# install PACKAGE...
install() {
    say "installing $*"
    as_root='env DEBIAN_FRONTEND=noninteractive' # nobody sees a question that it would ask
    [ "$(id -u)" -eq 0 ] || as_root="sudo -n $as_root"
    { $as_root apt-get install -y --no-install-recommends "$@" ||
        { $as_root apt-get update && $as_root apt-get install -y --no-install-recommends "$@"; }; } >/dev/null 2>&1 ||
        { say "cannot install $*"; return 1; }
}

# need COMMAND-OR-FILE PACKAGE...: installs the packages where the command, or the file by its whole path, is not there.
need() {
    case $1 in
    /*) [ -e "$1" ] && return ;;
    *) command -v "$1" >/dev/null 2>&1 && return ;;
    esac
    shift
    install "$@"
}

# The C library's headers for x86-64, and gcc for the few that a compiler brings itself.
find_headers() {
    need gcc gcc libc6-dev || return
    case $(uname -m) in
    x86_64)
        need /usr/include/stdio.h libc6-dev || return
        libc_headers="-isystem /usr/include/x86_64-linux-gnu -isystem /usr/include"
        ;;
    *)
        need /usr/x86_64-linux-gnu/include/stdio.h libc6-dev-amd64-cross || return
        libc_headers="-isystem /usr/x86_64-linux-gnu/include"
        ;;
    esac
    gcc_headers=$(gcc -print-file-name=include)
}

# The linker for programs that need nothing of the machine that runs them: gcc for x86-64, with a C library to link statically.
find_linker() {
    library=libc6-dev compiler=gcc
    [ "$(uname -m)" = x86_64 ] || library=libc6-dev-amd64-cross compiler=gcc-x86-64-linux-gnu
    need x86_64-linux-gnu-gcc "$compiler" "$library" || return
    need "$(x86_64-linux-gnu-gcc -print-file-name=libc.a)" "$library"
}

# kit_clang ARGUMENT...: the kit's compiler, for x86-64, with the headers that find_headers found.
kit_clang() {
    # shellcheck disable=SC2086 # a list of words
    "$tools/bin/clang" --target=$target -nostdinc -isystem "$gcc_headers" $libc_headers -I"$root/host" "$@"
}

# compile OBJECT SOURCE [FLAG...]: as fast as the archive itself is compiled, and the same in whichever folder.
compile() {
    object=$1 source=$2
    shift 2
    # shellcheck disable=SC2086 # a list of words
    kit_clang -march=x86-64 -O3 -fPIE -ffile-prefix-map="$root"=. $strict "$@" -c "$source" -o "$object"
}

# object_of PROGRAM SOURCE: where build puts the object of a source.
object_of() { echo "$built/$1.objects/$(echo "${2%.c}" | tr / -).o"; }

# build PROGRAM SOURCE...: a C program over the archive, as $built/PROGRAM. Objects go before the archive.
build() {
    find_headers || return
    program=$1
    shift
    mkdir -p "$built/$program.objects" || return
    for source in "$@"; do
        object=$(object_of "$program" "$source")
        compile "$object" "$root/$source" || return
        set -- "$@" "$object" # in the place of its source
        shift
    done
    linked=$("$kit/bin/rattle-link" --target $target --toolchain "$tools" -o "$built/$program.new" "$@" "$archive" 2>&1) ||
        { say "$linked"; return 1; }
    mv "$built/$program.new" "$built/$program"
}

# start FILE [ARGUMENT...]: a program for x86-64, by its path; its exit status passes through.
start() {
    ${emulator:+"$emulator"} "$tools/lib/ld-linux-x86-64.so.2" --library-path "$tools/lib" "$@"
}

# run PROGRAM [ARGUMENT...]: what build built.
run() {
    program=$1
    shift
    start "$built/$program" "$@"
}

# build_native PROGRAM SOURCE...: a C program for this machine, with second/ behind the same header in place of the archive,
# that stops at the first fault which the address or the undefined-behaviour sanitizer sees.
build_native() {
    need gcc gcc libc6-dev || return
    mkdir -p "$built" || return
    native=$built/$1
    shift
    # shellcheck disable=SC2086
    (cd "$root" && gcc $strict -O1 -g -fsanitize=address,undefined -fno-sanitize-recover=all -Ihost -o "$native" "$@")
}

# What is made and kept: where it stands, the files and folders that it is made from, and how it is made anew.
about() {
    case $1 in
    archive) product=$archive sources='crates.txt crates' ;;
    verdict) product=$verdict sources='crates.txt crates' ;;
    decisions) product=$decisions sources='crates.txt crates' ;;
    console) product=$built/console sources='crates.txt crates host tools/kit.sh' ;;
    record) product=$built/record sources='crates.txt crates host tools/kit.sh' ;;
    esac
}

# by_rt CRATE COMMAND: rt's command in the folder of a crate; what it makes is in out/ there. For any x86-64 processor, as
# host/pomurica.h says: rt's own choice is a later one.
by_rt() (
    cd "crates/$1" && exec rt "$2" --cpu=x86-64 </dev/null
)

# take FILE PRODUCT: what rt made, to where it is looked for; in one move, so that it is there whole or not at all.
take() { mkdir -p "$(dirname -- "$2")" && cp -- "$1" "$2.new" && mv -- "$2.new" "$2"; }

archive_anew() { by_rt console lib && take crates/console/out/libconsole.a "$archive"; }

# rt proves and links a program, and runs it, here on no input. The object is for ./release, which links it in its own way.
program_anew() {
    made=crates/$1/out/$1
    by_rt "$1" run && take "$made.o" "target/obj/$1.o" && take "$made" "target/bin/$1"
}

verdict_anew() { program_anew verdict; }

decisions_anew() { program_anew decisions; }

# shellcheck disable=SC2086 # a list of words
console_anew() { make archive && build console $console_sources; }

# shellcheck disable=SC2086 # a list of words
record_anew() { make archive && build record $record_sources; }

# in_sources EXPRESSION...: find, among the files and folders of $sources. What rt keeps in a crate's out/ is no source, and a
# crate's own folder changes with that one; its files are watched by their names, as below.
in_sources() {
    # shellcheck disable=SC2086 # a list of words
    find $sources -type d -regex 'crates/[^/]*/out' -prune -o ! \( -type d -regex 'crates/[^/]*' \) "$@"
}

source_names() { in_sources ! -type d -print | LC_ALL=C sort; }

# is_fresh NAME: whether it was made, and no source changed since its making began. By the time at which a file's status
# changed, folders too, and by the names that the mark has: so a file that is gone counts, and an older one that is put in its
# place.
is_fresh() (
    about "$1"
    [ -e "$product" ] && [ -e "$product.made" ] && cd "$root" && source_names | cmp -s - "$product.made" &&
        changed=$(in_sources -cnewer "$product.made" -print -quit) && [ -z "$changed" ]
)

# remake NAME: makes it, with a mark beside it that has the names of the sources and is as old as the beginning, so that a source
# which is edited meanwhile counts as changed. The second between is for a file system that keeps times in whole seconds.
remake() (
    about "$1"
    cd "$root" || exit
    mkdir -p "$(dirname -- "$product")" && rm -f "$product.made" && source_names >"$product.making" && sleep 1 || exit
    "$1_anew" || exit
    [ -e "$product" ] || give_up "no $product was made"
    mv "$product.making" "$product.made"
)

# make NAME: the same where it is not fresh.
make() { is_fresh "$1" || remake "$1"; }

# A temporary folder for what runs apart, whatever it leaves there; rt, as root, runs a program as nobody, who has to get in.
scratch=''
make_scratch() {
    scratch=$(mktemp -d) || give_up 'cannot write in the temporary folder'
    chmod 711 "$scratch"
}

# apart COMMAND...: runs a command that a signal to this script ends, with all that it started: rt starts its proofs in the
# background, where Ctrl-C is not heard. timeout, of coreutils, makes a process group of its command and passes a signal on
# to the whole group; 0 is no limit.
apart() {
    trap 'end_by 1' HUP
    trap 'end_by 2' INT
    trap 'end_by 15' TERM
    timeout 0 env ${scratch:+TMPDIR="$scratch"} "$@" </dev/null &
    ended=0
    wait $! || ended=$?
    trap - HUP INT TERM
    return $ended
}

# end_by SIGNAL: ends what runs in the background, and then this script as a shell tells it of one that a signal ended.
dots=''
end_by() {
    trap '' HUP INT TERM
    kill $! ${dots:+"$dots"} 2>/dev/null
    wait
    rm -rf "$scratch"
    exit $((128 + $1))
}

# One build at a time in a folder: the lock is on the root folder itself, which stays when target/ goes. What is started
# under the lock, in the same folder, does not wait for it. flock is of util-linux, which every Debian has; a file system
# without locks does without.
lock() {
    [ "${POMURICA_LOCKED-}" != "$root" ] || return 0
    exec 9<"$root"
    busy=0
    flock -n 9 2>/dev/null || busy=$?
    [ $busy -ne 1 ] || { tell "something else builds in $root; waiting for it"; apart flock 9; }
    export POMURICA_LOCKED="$root"
}

unlock() {
    exec 9<&-
    unset POMURICA_LOCKED
}

# alone SCRIPT [ARGUMENT...]: for a script that builds all along. Runs it again, apart and under the lock; only that second
# run comes back from here.
alone() {
    [ "${POMURICA_LOCKED-}" != "$root" ] || return 0
    make_scratch
    lock
    status=0
    apart sh "$@" || status=$?
    rm -rf "$scratch"
    exit $status
}

# prepare NAME: makes what a script runs, where something changed. Says so on standard error, with dots while it lasts; what
# the making prints is shown, its end, only where it fails.
prepare() {
    is_fresh "$1" && return
    lock
    prepared=0
    is_fresh "$1" || make_quietly "$1" || prepared=1
    unlock
    return $prepared
}

make_quietly() {
    make_scratch
    tell 'proving and building, a few minutes the first time'
    # The dots end with the script too, also when that is killed: a process that ended is in no folder.
    while [ -d /proc/$$/cwd ]; do printf . >&2; sleep 2 >/dev/null 2>&1; done 9<&- &
    dots=$!
    # shellcheck disable=SC2016 # expands in the shell that is started
    apart sh -c 'root=$1 && . "$root/tools/kit.sh" && make "$2"' "$0" "$root" "$1" >"$scratch/log" 2>&1
    made=$?
    kill $dots
    wait $dots 2>/dev/null
    dots=
    echo >&2
    [ $made -eq 0 ] || { tail -n 20 "$scratch/log" >&2; tell 'could not be built'; }
    rm -rf "$scratch"
    return $made
}
