# The gate sources this file: it makes a bare Debian 12, and runs commands in it.
# shellcheck shell=bash

. tools/packages.sh

suite=bookworm
# Where downloaded packages stay between runs, if the machine keeps files.
package_cache=/var/cache/dmf-gate

# Runs a command with only PATH and HOME in its environment, so that nothing else in the caller's
# environment changes what is tested.
in_clean_environment() {
    local path=/usr/local/sbin:/usr/local/bin:/usr/sbin:/usr/bin:/sbin:/bin toolchain
    if toolchain=$(command -v rt); then
        path=$(dirname "$toolchain"):$path
    fi
    env -i PATH="$path" HOME="${HOME:-/}" "$@"
}

# Prints this machine's package sources for Debian 12, one a line.
debian_sources() {
    local format="deb \$(REPO_URI) \$(RELEASE) \$(COMPONENT)"
    apt-get indextargets --format "$format" 'Identifier: Packages' 'Origin: Debian' | grep " $suite" | sort -u
}

# Makes a bare Debian 12 in a folder: the variant minbase, from this machine's own package sources. If
# it fails, the last line that it prints says why.
make_bare_debian() {
    local sources
    [ "$(id -u)" -eq 0 ] || {
        echo "only root can"
        return 1
    }
    (want_packages gate mmdebstrap) || return
    sources=$(debian_sources)
    if [ -z "$sources" ]; then
        apt-get update -q >/dev/null 2>&1
        sources=$(debian_sources)
    fi
    [ -n "$sources" ] || {
        echo "this machine has no source of Debian's $suite"
        return 1
    }
    mkdir -p "$package_cache" || return
    # The hooks are given the new root's folder as $1.
    # shellcheck disable=SC2016
    mmdebstrap --quiet --mode=root --variant=minbase --skip=essential/unlink \
        --setup-hook='mkdir -p "$1/var/cache/apt/archives"' \
        --setup-hook="sync-in $package_cache /var/cache/apt/archives" \
        --customize-hook="sync-out /var/cache/apt/archives $package_cache" \
        "$suite" "$1" - <<<"$sources" || return
    in_bare_debian "$1" true
}

# Runs a command in this Debian, with its own namespaces for mounts and processes, so that nothing of
# it remains when the command ends.
in_bare_debian() {
    local root=$1
    shift
    # shellcheck disable=SC2016
    unshare --mount --pid --fork --kill-child bash -c '
        set -e
        root=$1 cache=$2
        shift 2
        mount -t proc proc "$root/proc"
        mkdir -p "$root/dev/pts" "$root/dev/shm"
        mount -t devpts -o newinstance,ptmxmode=0666,mode=0620,gid=5 devpts "$root/dev/pts"
        ln -sf pts/ptmx "$root/dev/ptmx"
        mount -t tmpfs -o mode=1777 tmpfs "$root/dev/shm"
        mount --bind "$cache" "$root/var/cache/apt/archives"
        cp /etc/resolv.conf "$root/etc/resolv.conf"
        exec chroot "$root" env -i PATH=/usr/sbin:/usr/bin:/sbin:/bin HOME=/root "$@"
    ' bash "$root" "$package_cache" "$@"
}

# Makes a clean clone in this Debian, with a copy of ../shared beside it if that exists.
put_clean_clone() {
    mkdir "$1/work"
    git clone --quiet --no-hardlinks . "$1/work/dmf" || return
    [ ! -d ../shared ] || cp -r ../shared "$1/work/"
}

# Types README's commands in the clone in this Debian, and prints how much they installed.
type_in_bare_debian() {
    local root=$1 before status
    before=$(megabytes "$root")
    SECONDS=0
    in_bare_debian "$root" /work/dmf/.ci/typed
    status=$?
    echo "gate: README's commands took $((SECONDS / 60)) min $((SECONDS % 60)) s in a bare Debian of $before MB, and left $(megabytes "$root") MB"
    return "$status"
}

megabytes() {
    du -sm --one-file-system "$1" | cut -f 1
}

# Builds the image of the Containerfile on this Debian, without a download, and lets it solve a
# problem. The second argument is a folder for podman's files. The status is 2 if podman cannot build
# here.
try_containerfile() {
    local root=$1 said solve='FROM localhost/dmf\nCOPY a.max .\nRUN /opt/dmf/dmf solve --brief <a.max\n'
    local podman=(env STORAGE_DRIVER=vfs podman --root "$2/storage" --runroot "$2/run")
    (want_packages gate podman) || return 2
    tar -C "$root" --one-file-system -c ./bin ./etc ./lib ./lib64 ./sbin ./tmp ./usr ./var |
        "${podman[@]}" import --quiet - localhost/debian || return 2
    "${podman[@]}" build --quiet --isolation=chroot --from localhost/debian --tag dmf "$root/work/dmf" || return 1
    printf '%b' "$solve" >"$2/Containerfile"
    said=$("${podman[@]}" build --isolation=chroot --file "$2/Containerfile" "$root/work/dmf/examples") || return 1
    grep -qx 'c solve value 5' <<<"$said"
}
