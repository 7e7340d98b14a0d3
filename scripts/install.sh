#!/bin/bash
# Installs Debian packages where something of what they bring lacks, and says which and why. Where all is there it says nothing.
#   scripts/install.sh WHY PACKAGE=FILE...    FILE is what a package brings: a program of PATH, or a path
set -euo pipefail
why=$1
shift
is_there() { case $1 in /*) [ -e "$1" ] ;; *) command -v "$1" >/dev/null ;; esac; }
lacks=''
for entry; do is_there "${entry#*=}" || lacks="$lacks ${entry#*=}"; done
[ -n "$lacks" ] || exit 0

# All of them, since some have to be of one version: a compiler and its library.
packages=("${@%%=*}")
listed=$(printf ', %s' "${packages[@]}")
listed=${listed#, }
if ! command -v apt-get >/dev/null || [ "$(id -u)" -ne 0 ]; then
    echo "FAILED: not found:$lacks ($why). To install $listed takes root and apt-get: run make as root, or install by hand." >&2
    exit 1
fi
echo "installing $listed: $why"

said=$(mktemp)
trap 'rm -f "$said"' EXIT
install() {
    local package
    for package in "${packages[@]}"; do
        case $package in *:*) dpkg --add-architecture "${package#*:}" || return ;; esac
    done
    # Another apt-get may be at work: it is waited for.
    apt-get -q update -o DPkg::Lock::Timeout=300 &&
        DEBIAN_FRONTEND=noninteractive apt-get -q install -y --no-install-recommends -o DPkg::Lock::Timeout=300 "${packages[@]}"
}
install >"$said" 2>&1 </dev/null || {
    cat "$said" >&2
    echo "FAILED: could not install $listed (apt-get's own words are above)" >&2
    exit 1
}
for entry; do
    is_there "${entry#*=}" || { echo "FAILED: ${entry%%=*} is installed and did not bring ${entry#*=}" >&2; exit 1; }
done
echo "installed ($SECONDS s)"
