# For other scripts to read with '.': what they need beside the kit, from Debian's packages.

# debian_install PACKAGES: installs them where that may be done, which is on Debian, as root; and else names
# the command that does it, and fails. What apt-get says is shown only if it fails. Whether the lists are
# new enough is for the install to find out.
debian_install() {
    if [ "$(id -u)" = 0 ] && command -v apt-get >/dev/null; then
        echo "$0: installing $*" >&2
        mkdir -p target
        {
            apt-get update -qq || true
            DEBIAN_FRONTEND=noninteractive apt-get install -qq -y --no-install-recommends "$@"
        } </dev/null >target/apt.log 2>&1 && return
        cat target/apt.log >&2
    fi
    echo "$0: not installed: $*; on Debian, as root: apt-get update && apt-get install -y $*" >&2
    return 1
}

# debian_need COMMANDS: each is there, or is installed from the package of its name
debian_need() {
    debian_lacking=
    for debian_tool in "$@"; do
        command -v "$debian_tool" >/dev/null || debian_lacking="$debian_lacking $debian_tool"
    done
    [ -z "$debian_lacking" ] || debian_install $debian_lacking
}
