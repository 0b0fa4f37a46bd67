# Installs packages of Debian. Tests source this file.

is_installed() {
    dpkg-query -W -f '${db:Status-Status}' "$1" 2>/dev/null | grep -q '^installed$'
}

# Installs what is missing. No service of these packages is started: the parts start their own.
install_missing() {
    local package missing=() rules=/usr/sbin/policy-rc.d
    for package; do
        is_installed "$package" || missing+=("$package")
    done
    [ ${#missing[@]} -gt 0 ] || return 0
    if ! command -v apt-get >/dev/null || [ "$(id -u)" != 0 ]; then
        echo "run: not installed, as only root may: ${missing[*]}" >&2
        return
    fi
    timeout 120 apt-get update -q >/dev/null 2>&1
    local made=''
    [ -e "$rules" ] || { printf '#!/bin/sh\nexit 101\n' >"$rules" && chmod +x "$rules" && made=yes; }
    for package in "${missing[@]}"; do
        DEBIAN_FRONTEND=noninteractive timeout 600 apt-get install -y -q --no-install-recommends "$package" >/dev/null 2>&1 ||
            echo "run: $package isn't available" >&2
    done
    [ -z "$made" ] || rm -f -- "$rules"
}
