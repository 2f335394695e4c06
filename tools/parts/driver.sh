# shellcheck shell=dash
# The program that benchmarks time in process (bench/drivers), for scripts that source it at the repository's top: `copy_driver FOLDER` makes a repository
# of it and of the crates below it in that folder, with a second word `out` with what earlier checks kept; `build_driver FOLDER` proves and builds it
# there (some ten minutes) and prints where it is.
copy_driver() {
    local crates crate part
    crates='site_ids mustache_scan mustache_parse context command shared_map content render release learner chosen_log acceptor site_disk durable'
    for crate in $crates; do
        mkdir -p "$1/crates/$crate"
        for part in src specs proofs ${2:-}; do
            [ ! -d "crates/$crate/$part" ] || cp -a "crates/$crate/$part" "$1/crates/$crate/$part"
        done
        grep "^$crate:" crates.txt
    done > "$1/crates.txt"
    echo "bench_drivers: $crates anyhow" >> "$1/crates.txt"
    mkdir -p "$1/crates/bench_drivers/src"
    for part in bench/drivers/*.in; do
        crate=${part##*/}
        cp "$part" "$1/crates/bench_drivers/src/${crate%.in}"
    done
}

build_driver() {
    copy_driver "$1" out
    (cd "$1/crates/bench_drivers" && rt run -- votes 1 1) > "$1/log" 2>&1 || { tail -n 20 "$1/log" >&2; return 1; }
    echo "$1/crates/bench_drivers/out/bench_drivers"
}
