# shellcheck shell=bash
# The tools that scripts of tests/ use if they are installed, each with its package of Debian. To be sourced.
tools=(
    clasp:clasp cbc:coinor-cbc glpsol:glpk-utils minisat+:minisat+ parallel:parallel shellcheck:shellcheck
    pytest:python3-pytest mypy:mypy flake8:flake8 black:black
    chromium:chromium chromedriver:chromium-driver
    mandoc:mandoc man:man-db zsh:zsh fish:fish lintian:lintian script:bsdutils setpriv:util-linux
)

# The packages of the tools that are not installed, NumPy's, if no python3 has it, that by which pytest uses several processors, and that by
# which tests use a browser.
missing_packages() {
    local tool
    for tool in "${tools[@]}"; do
        command -v "${tool%%:*}" > /dev/null || echo "${tool#*:}"
    done
    has_numpy python3 || has_numpy /usr/bin/python3 || echo python3-numpy
    /usr/bin/python3 -c 'import xdist' 2> /dev/null || echo python3-pytest-xdist
    /usr/bin/python3 -c 'import selenium' 2> /dev/null || echo python3-selenium
}

# has_numpy PYTHON
has_numpy() { "$1" -c 'import numpy' 2> /dev/null; }

# quiet_apt WORD..: apt-get, which neither asks nor waits for a network that is not there.
quiet_apt() {
    DEBIAN_FRONTEND=noninteractive timeout 900 apt-get -qq -y -o Acquire::http::Timeout=20 -o Acquire::Retries=1 "$@" > /dev/null 2>&1
}

# Installs the missing tools, if the user is root and has apt-get. Cases that need a missing tool are skipped later.
install_tools() {
    local packages package
    mapfile -t packages < <(missing_packages)
    if [ ${#packages[@]} -gt 0 ] && [ "$(id -u)" = 0 ] && command -v apt-get > /dev/null; then
        quiet_apt update
        quiet_apt install --no-install-recommends "${packages[@]}" || for package in "${packages[@]}"; do
            quiet_apt install --no-install-recommends "$package"
        done
    fi
    # The python3 of all scripts has NumPy, if one does.
    has_numpy python3 || ! has_numpy /usr/bin/python3 || PATH=/usr/bin:$PATH
}
