# What the measurements share; they read it by `source`, with their folder in $bench.

# Proves and builds kconf, and prints the path of the program.
build_kconf() {
    local crate=$bench/../crates/kconf
    (cd "$crate" && rt run -- --help >/dev/null)
    realpath "$crate/out/kconf"
}

# Installs Debian's packages of these names.
install_packages() {
    local as_root=()
    [ "$(id -u)" -eq 0 ] || as_root=(sudo)
    "${as_root[@]}" apt-get update >/dev/null
    "${as_root[@]}" apt-get install --yes "$@" >/dev/null
}
