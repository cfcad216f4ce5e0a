# What ./install, ./check and ./package share. Each reads it at the top of the repository, with its own name as `self`.
# shellcheck shell=bash
set -o pipefail
: "${self:?}"

# Says why it can't be done, and ends with a status, which is 1 where none is given.
fail() {
    printf '%s: %s\n' "$self" "$1" >&2
    exit "${2:-1}"
}

# The files that are installed: the mode, the file here, and its place under a prefix.
files() {
    local tool page name module
    echo "755 crates/atgis/out/atgis bin/atgis"
    echo "755 crates/atgis_part/out/atgis_part bin/atgis-part"
    for tool in tools/atgis-*; do echo "755 $tool bin/${tool##*/}"; done
    for page in man/*.[17]; do echo "644 $page share/man/man${page##*.}/${page##*/}"; done
    for name in atgis atgis-many; do
        echo "644 completions/atgis.bash share/bash-completion/completions/$name"
        echo "644 completions/atgis.fish share/fish/vendor_completions.d/$name.fish"
    done
    echo "644 completions/_atgis share/zsh/site-functions/_atgis"
    for module in python/*.py python/py.typed python/pyproject.toml python/backend/wheels.py; do
        echo "644 $module share/atgis/$module"
    done
}

# A manual page with the version in it, or another file as it is.
text_of() {
    case $1 in
    man/*) sed "s/@VERSION@/$(cat VERSION)/g" <"$1" ;;
    *) cat "$1" ;;
    esac
}

# The memory in GiB that the system has, or that this container may take.
memory() {
    local limit
    limit=$(cat /sys/fs/cgroup/memory.max 2>/dev/null || echo max)
    awk -v limit="$limit" '/^MemTotal:/ { has = $2 * 1024; if (limit != "max" && limit + 0 < has) has = limit + 0
        printf "%.0f", has / 1073741824 }' /proc/meminfo 2>/dev/null || echo "?"
}

# What was found of the machine, in words.
machine() {
    local count
    count=$(nproc)
    echo "found $count processor$([ "$count" = 1 ] || echo s) and $(memory) GiB of memory"
}

# Ends where there is no toolchain.
need_toolchain() {
    if command -v rt >/dev/null; then return; fi
    fail "there is no command rt on the PATH.
atgis is proved and built by rt, a command of the Rattle toolchain. The toolchain is one folder, which is
copied as it is and works without a network; README.md says which version proved this program. Ask whoever
gave you this repository for it. Where you have it, put its bin on the PATH, as by
    PATH=TOOLCHAIN/bin:\$PATH $self
\`rt doc\` names its first page."
}

# Has rt prove and build the program of a crate, and run it over words. What rt says goes on.
run_of() {
    (cd "crates/$1" && shift && rt run -- "$@" 2>&1 >/dev/null)
}

# Proves and builds both programs, and shows how far that is.
build() {
    local path
    mkdir -p out
    if ! { run_of atgis count data/points.wkt && run_of atgis_part items count data/points.json; } |
        setup/progress build out/build.log "$self"; then
        tail -n 20 out/build.log >&2
        fail "rt didn't prove and build the program; out/build.log has all that it said"
    fi
    for path in crates/atgis/out/atgis crates/atgis_part/out/atgis_part; do
        [ -x "$path" ] || fail "rt left no program at $path"
    done
}
