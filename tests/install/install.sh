#!/usr/bin/env bash
# Tests ./install in folders of its own: what it puts, replaces, refuses, leaves and removes, with a
# stand-in for rt that makes a program which writes its version; then the built program, the tools
# and the package, once installed. Each failed case is named. The last line is 'N passed, M failed',
# and the status is 0 only if nothing failed.
set -u
cd "$(dirname "$0")/../.." || exit 1

work=$(mktemp -d)
trap 'rm -rf "$work"' EXIT
passed=0
failed=0

pass() {
    passed=$((passed + 1))
}

fail() {
    failed=$((failed + 1))
    echo "failed: $*"
}

# Judges a run that left its output in the files out and err: the case's name, its status and the
# wanted one, and what is wanted on standard output and on standard error.
judge() {
    local name=$1 status=$2 wanted=$3
    printf '%s' "$4" >"$work/wanted_out"
    printf '%s' "$5" >"$work/wanted_err"
    if [ "$status" -ne "$wanted" ]; then
        fail "$name: status $status, and not $wanted"
    elif ! cmp -s "$work/out" "$work/wanted_out"; then
        fail "$name: standard output: $(head -c 300 "$work/out")"
    elif ! cmp -s "$work/err" "$work/wanted_err"; then
        fail "$name: standard error: $(head -c 300 "$work/err")"
    else
        pass
    fi
}

chmod 755 "$work"
root="$work/a clone"
prefix="$work/a place"
mkdir -p "$root/bin" "$root/crates/dmf/src" "$root/docs" "$root/clients/python/dmf" "$root/prebuilt"
cp -r install dmf completions tools include "$root"
cp docs/*.[135] "$root/docs"
git ls-files -z --cached --others --exclude-standard clients/python/dmf | xargs -0 cp --parents -t "$root"
printf 'dmf:\n' >"$root/crates.txt"
echo 1 >"$root/crates/dmf/src/version"

# prebuilt/ has no program, and a C library of these sources.
sum_of() {
    sha256sum | cut -d ' ' -f 1
}
echo "a library" | gzip >"$root/prebuilt/libdmf-x86_64-linux.so.0.gz"
echo "an archive" | gzip >"$root/prebuilt/libdmf-x86_64-linux.a.gz"
printf '%s\n' "library: $(echo "a library" | sum_of)" "archive: $(echo "an archive" | sum_of)" \
    "library sources: $(cd "$root" && sha256sum crates.txt tools/dmf.map tools/library | sum_of)" >"$root/prebuilt/dmf-x86_64-linux.txt"

stand_in() {
    cat >"$root/bin/rt"
    chmod 755 "$root/bin/rt"
}

# Calls the script, which a link leads to, from another folder and with no other variable than PATH,
# and judges it: the case's name, the status, what is written and what is told, without times. The
# words come last.
ln -s "$root/install" "$work/linked"
call() {
    local name=$1 wanted=$2 out=$3 err=$4 status
    shift 4
    (cd "$work" && env -i PATH="$root/bin:/usr/bin:/bin" timeout 300 ./linked "$@") >"$work/out" 2>"$work/told" </dev/null
    status=$?
    sed 's/, after [0-9]* s$//' "$work/told" >"$work/err"
    judge "$name" "$status" "$wanted" "$out" "$err"
}

# Judges a text: the case's name, the text, and the wanted one.
same() {
    if [ "$2" = "$3" ]; then
        pass
    else
        fail "$1: $(head -c 1000 <<<"$2")"
    fi
}

# The files and folders below a folder, with their modes and what the files have.
tree() {
    (cd "$1" && { find . -printf '%p %m\n' && find . -type f -exec sha256sum -b {} +; } | sort)
}

# What stands in a line for each file: the word before it, and the folder.
lines() {
    local file name
    for file in dmf commands.sh tables.txt tools.txt; do
        echo "$1 $2/lib/dmf/$file"
    done
    for file in dmf dmf-problem dmf-names dmf-dot dmf-sweep dmf-plan dmf-board; do
        echo "$1 $2/bin/$file"
    done
    for file in docs/*.[135]; do
        echo "$1 $2/share/man/man${file##*.}/${file#docs/}"
    done
    echo "$1 $2/lib/libdmf.so.0"
    echo "$1 $2/lib/libdmf.a"
    echo "$1 $2/lib/libdmf.so"
    echo "$1 $2/lib/pkgconfig/dmf.pc"
    echo "$1 $2/lib/cmake/dmf/dmfConfig.cmake"
    echo "$1 $2/lib/cmake/dmf/dmfConfigVersion.cmake"
    echo "$1 $2/include/dmf.h"
    echo "$1 $2/include/dmf.hpp"
    for file in $(git ls-files --cached --others --exclude-standard clients/python/dmf); do
        echo "$1 $2/share/dmf/python/${file#clients/python/}"
    done
    for name in dmf dmf-problem dmf-names dmf-dot dmf-sweep dmf-plan dmf-board; do
        echo "$1 $2/share/bash-completion/completions/$name"
        echo "$1 $2/share/fish/vendor_completions.d/$name.fish"
    done
    echo "$1 $2/share/zsh/site-functions/_dmf"
}

# What a call tells that puts all into a folder.
told() {
    lines installed "$1"
    echo "$1/bin is not in PATH"
    echo "Python imports the package dmf with PYTHONPATH=$1/share/dmf/python"
    echo "A program in C finds the library with PKG_CONFIG_PATH=$1/lib/pkgconfig and -Wl,-rpath,$1/lib"
}

putting="$(told "$prefix")
"
untaken="dmf: prebuilt/dmf-x86_64-linux.gz does not exist or cannot be read.
"
first="${untaken}dmf: the program is proved and built. This happens once, and takes 9 to 15 minutes on 4 idle processors.
"
built="dmf: 1 of 1: dmf is built
"

# Building.
stand_in <<'END'
#!/bin/sh
echo "no proof"
exit 1
END
call "a program that is not built" 1 "" "${first}dmf: dmf is not built
no proof
install: the program could not be built; nothing was installed
" --prefix "$prefix"
same "nothing is put without a program" "$([ -e "$prefix" ] || echo nothing)" nothing
stand_in <<'END'
#!/bin/sh
mkdir -p out
printf '#!/bin/sh\necho dmf %s\n' "$(cat src/version)" >out/dmf
chmod 700 out/dmf
END
mkdir -p "$prefix/share/man/man7" "$prefix/bin"
echo other >"$prefix/bin/other"
before=$(tree "$prefix")
call "the first call" 0 "$putting" "$first$built" --prefix "a place/"

# What is put.
same "the program is put" "$("$prefix/lib/dmf/dmf")" "dmf 1"
same "the launcher runs it" "$("$prefix/bin/dmf")" "dmf 1"
for pair in docs/dmf.1=share/man/man1/dmf.1 docs/dmf.3=share/man/man3/dmf.3 include/dmf.h=include/dmf.h include/dmf.hpp=include/dmf.hpp \
    include/libdmf.so=lib/libdmf.so include/dmf.pc=lib/pkgconfig/dmf.pc include/dmfConfig.cmake=lib/cmake/dmf/dmfConfig.cmake \
    include/dmfConfigVersion.cmake=lib/cmake/dmf/dmfConfigVersion.cmake completions/dmf.bash=share/bash-completion/completions/dmf \
    completions/_dmf=share/zsh/site-functions/_dmf completions/dmf.fish=share/fish/vendor_completions.d/dmf.fish \
    completions/dmf.bash=share/bash-completion/completions/dmf-names docs/dmf-tables.5=share/man/man5/dmf-tables.5 \
    completions/dmf.fish=share/fish/vendor_completions.d/dmf-dot.fish tools/commands.sh=lib/dmf/commands.sh \
    clients/python/dmf/__init__.py=share/dmf/python/dmf/__init__.py; do
    same "${pair%=*} is put" "$(sha256sum <"$prefix/${pair#*=}")" "$(sha256sum <"${pair%=*}")"
    same "${pair%=*} can be read by all" "$(stat -c %a "$prefix/${pair#*=}")" 644
done
same "the program can be run by all" "$(stat -c %a "$prefix/bin/dmf" "$prefix/lib/dmf/dmf" | uniq)" 755
same "the library is put" "$(cat "$prefix/lib/libdmf.so.0") $(stat -c %a "$prefix/lib/libdmf.so.0")" "a library 644"
same "the static library is put" "$(cat "$prefix/lib/libdmf.a") $(stat -c %a "$prefix/lib/libdmf.a")" "an archive 644"
placed=$(tree "$prefix")
call "a second call" 0 "$putting" "" --prefix="$prefix"
same "a second call puts the same" "$(tree "$prefix")" "$placed"

# A newer program replaces an older one, which a process that has opened it can still read.
exec 3<"$prefix/lib/dmf/dmf"
echo 2 >"$root/crates/dmf/src/version"
touch -d '1 hour' "$root/crates/dmf/src"
call "an upgrade" 0 "$putting" \
    "${untaken}dmf: a source has changed since the program was built. What depends on it is proved and built again.
$built" --prefix "$prefix"
same "the newer program is put" "$("$prefix/bin/dmf")" "dmf 2"
same "the older program is whole" "$(sh <&3)" "dmf 1"
exec 3<&-
touch -r "$root/install" "$root/crates/dmf/src"

# A library that prebuilt/ has not is built.
unlibraried="install: prebuilt/libdmf-x86_64-linux.so.0.gz does not exist or cannot be read
"
mv "$root/prebuilt" "$root/no prebuilt"
mv "$root/tools/library" "$root/library"
rm "$root/crates/dmf_c/out/libdmf.so.0"
printf '#!/bin/sh\necho no proof >&2\nexit 1\n' >"$root/tools/library"
chmod 755 "$root/tools/library"
call "a library that is not built" 1 "" "${unlibraried}no proof
install: the C library could not be built; nothing was installed
" --prefix "$prefix"
cat >"$root/tools/library" <<'END'
#!/bin/sh
echo another library >"$1/libdmf.so.0"
echo another archive >"$1/libdmf.a"
END
call "a library that is built" 0 "$putting" "$unlibraried" --prefix "$prefix"
same "it is put" "$(cat "$prefix/lib/libdmf.so.0" "$prefix/lib/libdmf.a")" $'another library\nanother archive'
mv "$root/library" "$root/tools/library"
mv "$root/no prebuilt" "$root/prebuilt"

# Removing.
rm "$prefix/share/man/man1/dmf.1"
(cd "$work" && "$root/install" --remove --prefix "$prefix") >"$work/out" 2>"$work/err"
judge "removing, where a file is not there" "$?" 0 "$(
    lines removed "$prefix" | LC_ALL=C sort -r | sed 's|^removed \(.*man1/dmf.1\)|already gone: \1|'
    echo "removed $prefix/share/dmf/installed"
)"$'\n' ""
same "what others put stays" "$(tree "$prefix")" "$before"
call "removing again" 0 "nothing was installed below $prefix"$'\n' "" --remove --prefix "$prefix"

# What was changed since it was put, and what others put beside it.
(cd "$work" && "$root/install" --prefix "$prefix") >"$work/out" 2>"$work/err"
judge "putting again" "$?" 0 "$putting" ""
echo mine >"$prefix/bin/dmf"
echo mine >"$prefix/share/man/man1/mine.1"
before=$(tree "$prefix")
call "a file that was changed" 1 "" \
    "install: $prefix/bin/dmf was changed after this script installed it; nothing was installed (move it away first)
" --prefix "$prefix"
same "all stays as it is" "$(tree "$prefix")" "$before"
for made in __pycache__/arcs tables/__pycache__/xlsx desk/plan/__pycache__/shell; do
    mkdir -p "$prefix/share/dmf/python/dmf/${made%/*}"
    : >"$prefix/share/dmf/python/dmf/$made.cpython-311.pyc"
done
call "removing, where a file was changed" 0 "$(
    lines removed "$prefix" | LC_ALL=C sort -r | sed "s|^removed \($prefix/bin/dmf\)\$|left, since it was changed: \1|"
    echo "removed $prefix/share/dmf/installed"
    echo "left, since it is not empty: $prefix/share/man/man1"
)"$'\n' "" --remove --prefix "$prefix"
same "what was changed stays" "$(cd "$prefix" && find . -type f | LC_ALL=C sort)" "./bin/dmf
./bin/other
./share/man/man1/mine.1"
same "emptied folders do not stay" "$(cd "$prefix" && find . -type d | LC_ALL=C sort)" ".
./bin
./share
./share/man
./share/man/man1
./share/man/man7"
rm -r "$prefix/bin/dmf" "$prefix/share/man/man1"

# A call that fails midway: the next one knows what stands there, of before and of this one.
quiet() {
    (cd "$work" && env -i PATH="$root/bin:/usr/bin:/bin" ./linked "$@") >"$work/out" 2>"$work/err" </dev/null
}
quiet --prefix "$prefix"
echo '# newer' >>"$root/tools/dmf-problem"
echo '# newer' >>"$root/tools/dmf-dot"
cat >"$root/bin/mv" <<'END'
#!/bin/sh
case "$3" in
*/bin/dmf-names) exit 1 ;;
*) exec /bin/mv "$@" ;;
esac
END
chmod 755 "$root/bin/mv"
quiet --prefix "$prefix"
same "a call that fails midway" "$? $(cat "$work/err")" "1 install: cannot write $prefix/bin/dmf-names"
same "it has put the first files alone" "$(tail -qn 1 "$prefix"/bin/dmf-{problem,dot} | grep -c newer)" 1
rm "$root/bin/mv"
call "a call after one that failed" 0 "$putting" "" --prefix "$prefix"
same "it puts the others" "$(tail -qn 1 "$prefix"/bin/dmf-{problem,dot} | grep -c newer)" 2
same "its list has each file once" "$(cut -d ' ' -f 2- "$prefix/share/dmf/installed" | sort | uniq -d)" ""

# Lists that this script did not write.
list=$prefix/share/dmf/installed
cp "$list" "$work/list"
echo victim >"$work/victim"
sum=$(sha256sum <"$work/victim")
ln -s "$work" "$prefix/way"
before=$(tree "$prefix")
for place in ../victim "$work/victim" way/victim share/../../victim; do
    echo "${sum%% *} $place" | cat "$work/list" - >"$list"
    call "removing a list with $place" 1 "" "install: $list names $place, which is not below $prefix; nothing was removed
" --remove --prefix "$prefix"
    call "putting beside a list with $place" 1 "" "install: $list names $place, which is not below $prefix; nothing was installed
" --prefix "$prefix"
done
older="does not have the mark of this script; nothing was removed. If an older ./install wrote it, remove it and the files that it names by hand"
printf '%s\n' bin/ bin/dmf bin/other share/dmf/installed >"$list"
call "a list without a mark" 1 "" "install: $list $older"$'\n' --remove --prefix "$prefix"
call "putting beside a list without a mark" 1 "" "install: $list ${older/removed/installed}"$'\n' --prefix "$prefix"
rm "$list"
ln -s "$work/list" "$list"
call "a list that is a link" 1 "" "install: $list is not a file below $prefix; nothing was removed"$'\n' --remove --prefix "$prefix"
rm "$list"
cp "$work/list" "$list"
same "nothing was removed" "$(tree "$prefix") $(cat "$work/victim")" "$before victim"
rm "$prefix/way"

# A folder that leads elsewhere: what is there stays.
mv "$prefix/share/dmf/python" "$work/elsewhere"
ln -s "$work/elsewhere" "$prefix/share/dmf/python"
before=$(tree "$work/elsewhere")
quiet --prefix "$prefix"
same "a folder that leads elsewhere" "$? $(grep -c 'names share/dmf/python/dmf.*, which is not below .*; nothing was installed$' "$work/err")" "1 1"
quiet --remove --prefix "$prefix"
same "removing where a folder leads elsewhere" "$? $(grep -c ', which is not below .*; nothing was removed$' "$work/err")" "1 1"
same "what is elsewhere stays" "$(tree "$work/elsewhere")" "$before"
rm "$prefix/share/dmf/python"
mv "$work/elsewhere" "$prefix/share/dmf/python"
mkdir -p "$work/linked place"
ln -s "$work/elsewhere" "$work/linked place/bin"
quiet --prefix "$work/linked place"
same "putting where a folder leads elsewhere" "$? $(cat "$work/err")" \
    "1 install: $work/linked place/bin/dmf is not below $work/linked place once symbolic links are followed; nothing was installed"
rm -r "$work/linked place"

# The prefix may itself be a link.
mkdir "$work/true place"
ln -s "$work/true place" "$work/other name"
quiet --prefix "$work/other name" && quiet --remove --prefix "$work/other name"
same "a prefix that is a link" "$? $(find "$work/true place")" "0 $work/true place"

call "removing it all" 0 "$(
    lines removed "$prefix" | LC_ALL=C sort -r
    echo "removed $prefix/share/dmf/installed"
)"$'\n' "" --remove --prefix "$prefix"

# What is refused.
echo mine >"$prefix/bin/dmf"
before=$(tree "$prefix")
call "a file of somebody else" 1 "" "install: $prefix/bin/dmf already exists, and this script did not install it; nothing was installed
" --prefix "$prefix"
same "it stays as it is" "$(tree "$prefix")" "$before"
call "a folder that is a file" 1 "" "install: cannot write in $prefix/bin/dmf; nothing was installed (choose another place with --prefix DIR)
" --prefix "$prefix/bin/dmf"
# Nobody else installs below a folder of root's, and the caller does not where he is not root.
mkdir -p "$work/closed"
chmod 555 "$work/closed"
somebody=()
[ "$(id -u)" -ne 0 ] || somebody=(setpriv --reuid=65534 --regid=65534 --clear-groups)
"${somebody[@]}" "$root/install" --prefix "$work/closed" >"$work/out" 2>"$work/err"
judge "a folder that the caller cannot write" "$?" 1 "" \
    "install: cannot write in $work/closed; nothing was installed (choose another place with --prefix DIR)"$'\n'
for words in wash "--prefix" "--prefix="; do
    status=0
    "$root/install" $words >"$work/out" 2>"$work/err" || status=$?
    same "the words $words" "$status $(wc -c <"$work/out") $(grep -c '^install: \|^Usage: install' "$work/err")" "2 0 2"
done
call "help" 0 "$("$root/install" -h)"$'\n' "" --help

"$root/install" --prefix "$work/new" >"$work/out" 2>&1 && "$root/install" --remove --prefix "$work/new" >"$work/out" 2>&1
same "a folder that was made is removed" "$? $(find "$work/new" 2>&1 | head -c 5)" "0 find:"

# Folders above the prefix, and those that a list alone names.
call_in() {
    local name=$1 wanted=$2
    quiet --remove --prefix "$3"
    same "$name" "$? $(grep -v '^removed ' "$work/out")" "0 $wanted"
}
if [ "$(stat -c %W "$work")" -gt 0 ]; then
    made=$work/made/by/it
    quiet --prefix "$made" && quiet --prefix "$made"
    call_in "removing, where folders above were made" "" "$made"
    same "they are removed" "$([ -e "$work/made" ] || echo gone)" gone
    quiet --prefix "$made"
    echo mine >"$work/made/mine"
    call_in "removing, where a folder above is not empty" "left, since it is not empty: $work/made" "$made"
    same "it keeps what is in it" "$(cd "$work/made" && find . -mindepth 1)" ./mine
    quiet --prefix "$made"
    echo mine >"$made/mine"
    call_in "removing, where the prefix is not empty" "left, since it is not empty: $made" "$made"
    rm -r "$work/made"
    quiet --prefix "$made"
    sed -i '/ \.\.\//d' "$made/share/dmf/installed"
    call_in "removing by a list that knows no folder above" "" "$made"
    same "they stay" "$(cd "$work/made" && find . -mindepth 1)" ./by
    rm -r "$work/made"
    # The file system's times of birth have whole seconds here, and those of one call are at most
    # one apart.
    mkdir -p "$work/theirs/empty"
    sleep 2.1
    quiet --prefix "$work/theirs/empty/place"
    echo "- ../" >>"$work/theirs/empty/place/share/dmf/installed"
    echo "- ../../" >>"$work/theirs/empty/place/share/dmf/installed"
    call_in "a forged list with the folders above" \
        "left, since it was not made with $work/theirs/empty/place: $work/theirs/empty" "$work/theirs/empty/place"
    same "they stay as they are" "$(cd "$work/theirs" && find .)" $'.\n./empty'
    quiet --prefix "$made"
    mv "$made" "$work/theirs/empty/moved"
    call_in "a prefix that was moved" \
        "left, since it was not made with $work/theirs/empty/moved: $work/theirs/empty" "$work/theirs/empty/moved"
    same "the folders there stay" "$(cd "$work/theirs" && find .)" $'.\n./empty'
    rm -r "$work/made"
else
    # A file system that does not tell when a folder was made.
    made=$work/made/by/it
    quiet --prefix "$made"
    call_in "removing, where folders have no time of birth" "left, since it was not made with $made: $work/made/by" "$made"
    rm -r "$work/made"
fi
mkdir -p "$work/theirs/empty"
quiet --prefix "$work/new"
for place in ../theirs/empty/ ../theirs/../ .././ ..; do
    cp "$work/new/share/dmf/installed" "$work/list"
    echo "- $place" >>"$work/new/share/dmf/installed"
    call "a list with the folder $place" 1 "" \
        "install: $work/new/share/dmf/installed names $place, which is not below $work/new; nothing was removed
" --remove --prefix "$work/new"
    cp "$work/list" "$work/new/share/dmf/installed"
done
same "no folder is removed by it" "$([ -d "$work/theirs/empty" ] && echo there)" there

# Where it puts all when no folder is named.
printf '#!/bin/sh\necho 1000\n' >"$root/bin/id"
chmod 755 "$root/bin/id"
env -i PATH="$root/bin:/usr/bin:/bin" HOME="$work/home" "$root/install" >"$work/out" 2>"$work/err"
judge "at home" "$?" 0 "$(told "$work/home/.local")"$'\n' ""
call "without a home" 2 "" "$(printf 'install: no folder: HOME is not set, or --prefix is empty\n' && "$root/install" --help)"$'\n'

# The program itself.
env -i PATH=/usr/bin:/bin ./install --prefix "$work/real" >"$work/out" 2>"$work/err"
judge "the program is installed" "$?" 0 "$(told "$work/real")"$'\n' ""
env -i "$work/real/bin/dmf" solve <examples/a.max >"$work/out" 2>"$work/err"
judge "the installed program runs" "$?" 0 $'s 5\nf 1 2 3\nf 1 3 2\nf 2 3 1\nf 2 4 2\nf 3 4 3\n' ""
for file in lib/dmf/dmf lib/libdmf.so.0; do
    same "$file needs libc alone" "$(ldd "$work/real/$file" | sed -n 's/^\t\(lib[^ ]*\.so\).*/\1/p')" libc.so
done

# A program in C that finds the library by pkg-config's file, here read by hand, and by the loader.
# tests/library does the same by pkg-config and CMake themselves.
flags="$(sed -n "s|^prefix=.*||; s|\${includedir}|$work/real/include|; s|\${libdir}|$work/real/lib|; s/^\(Libs\|Cflags\): //p" "$work/real/lib/pkgconfig/dmf.pc")"
# shellcheck disable=SC2086 # It has a word for each flag.
gcc examples/c/limit.c -o "$work/limit" $flags "-Wl,-rpath,$work/real/lib" >"$work/out" 2>"$work/err"
same "a C program is linked" "$? $(cat "$work/err")" "0 "
same "it runs" "$("$work/limit" | tail -n 2)" $'without arc 1: 2\nagain: 5'
same "the example of ctypes runs" "$(python3 examples/c/limit.py "$work/real/lib/libdmf.so.0")" "5 [3, 2, 1, 2, 3]"

# The tools, from elsewhere and by a link, and the package.
ln -s "$work/real/bin/dmf-problem" "$work/a tool"
(cd / && printf 'A,B,3\n' | "$work/a tool" A B) >"$work/out" 2>"$work/err"
judge "dmf-problem is installed" "$?" 0 $'c node 1 A\nc node 2 B\np max 2 1\nn 1 s\nn 2 t\na 1 2 3\n' \
    $'dmf-problem: there are no titles: from column 1, to column 2, capacity column 3\n'
cp "$work/out" "$work/problem"
"$work/real/bin/dmf-names" "$work/problem" <<<$'s 3\nf 1 2 3' >"$work/out" 2>"$work/err"
same "dmf-names is installed" "$? $(head -n 1 "$work/out")" "0 value 3"
"$work/real/bin/dmf-dot" "$work/problem" >"$work/out" 2>"$work/err"
same "dmf-dot is installed" "$? $(head -n 1 "$work/out")" "0 digraph dmf {"
(cd / && PYTHONPATH=$work/real/share/dmf/python python3 -c 'import dmf; print(dmf.__file__)') >"$work/out" 2>"$work/err"
judge "the package is installed" "$?" 0 "$work/real/share/dmf/python/dmf/__init__.py"$'\n' ""

echo "$passed passed, $failed failed"
[ "$failed" -eq 0 ]
