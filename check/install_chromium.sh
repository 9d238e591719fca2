#!/usr/bin/env bash
# Installs the headless Chromium that pictures.py calls, from the system's packages by apt-get, and prints its version.
#
#     check/install_chromium.sh
#
# Where `chromium` is there already, nothing is installed. Who isn't root needs sudo.
set -euo pipefail

if ! command -v chromium > /dev/null; then
    as_root=(env)
    if [ "$(id -u)" -ne 0 ]; then
        as_root=(sudo env)
    fi
    # What apt-get tells is shown only where it fails. The pictures name the families sans-serif and monospace, so it needs fonts.
    quiet=("${as_root[@]}" DEBIAN_FRONTEND=noninteractive apt-get -qq -o Dpkg::Use-Pty=0)
    told=$("${quiet[@]}" update 2>&1 && "${quiet[@]}" install --no-install-recommends chromium fonts-liberation 2>&1) || {
        echo "$told" >&2
        exit 1
    }
fi
chromium --version
