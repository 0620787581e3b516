# Scripts of the gate source this file: it provides packages of Debian.
# shellcheck shell=bash

# Prints which of these packages are not installed.
missing() {
    local package
    for package in "$@"; do
        [ "$(dpkg-query -W -f '${db:Status-Status}' "$package" 2>/dev/null)" = installed ] || echo "$package"
    done
}

# Installs packages. If that fails with the present package list, it updates the list and tries again.
# Waits for other calls of apt-get. Prints only why it failed, in one line.
install_packages() {
    local said install=(apt-get install -y -q --no-install-recommends -o DPkg::Lock::Timeout=300 "$@")
    export DEBIAN_FRONTEND=noninteractive
    "${install[@]}" >/dev/null 2>&1 && return
    said=$(apt-get update -q 2>&1 && "${install[@]}" 2>&1) || grep -m 1 '^[EW]: ' <<<"$said" || tail -n 1 <<<"$said"
}

# Requires packages for the script with this name. Root installs the missing ones; for other users, or
# if that fails, one line names them, and the status is 2.
want_packages() {
    local name=$1 wanted why=''
    shift
    mapfile -t wanted < <(missing "$@")
    [ "${#wanted[@]}" -gt 0 ] || return 0
    if [ "$(id -u)" -eq 0 ] && command -v apt-get >/dev/null; then
        echo "$name: installing ${#wanted[@]} packages of Debian and what they need, which takes some minutes"
        why=$(install_packages "${wanted[@]}")
        mapfile -t wanted < <(missing "$@")
        [ "${#wanted[@]}" -gt 0 ] || return 0
    fi
    echo "$name: packages of Debian are missing: apt install ${wanted[*]}${why:+ ($why)}" >&2
    exit 2
}
