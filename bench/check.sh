#!/usr/bin/env bash
# Checks timetables of 400,000 and 1,000,000 stop times, or of TRIPS times 20 where TRIPS is given, and prints CPU
# seconds and peak memory of each check (GNU time), next to those of counting the lines of stop_times.txt and, where
# Debian's librust-csv-dev and cargo are installed, of counting its records by Rust's csv.
#   bench/check.sh [TRIPS]
# Needs python3, GNU time, and the program, which ./hub builds where it is missing; or HUB, the path of another.
set -eu
. "$(dirname "$0")/begin.sh"

measured() {
    name=$1
    shift
    /usr/bin/time -f "%U s user, %S s system, %M KiB" -o "$work/time" "$@" > "$work/said"
    echo "$name: $(cat "$work/time"); $(head -n 1 "$work/said")"
}

registry=/usr/share/cargo/registry
if command -v cargo > /dev/null && ls -d "$registry"/csv-1* > /dev/null 2>&1; then
    mkdir -p "$work/rust/src" "$work/rust/.cargo"
    printf '[package]\nname = "count_records"\nversion = "0.1.0"\nedition = "2021"\n\n[dependencies]\ncsv = "1"\n' > "$work/rust/Cargo.toml"
    printf '[source.crates-io]\nreplace-with = "debian"\n[source.debian]\ndirectory = "%s"\n' "$registry" > "$work/rust/.cargo/config.toml"
    cat > "$work/rust/src/main.rs" <<'PROGRAM'
fn main() {
    let path = std::env::args().nth(1).unwrap();
    let mut reader = csv::ReaderBuilder::new().has_headers(false).flexible(true).from_path(path).unwrap();
    let mut record = csv::ByteRecord::new();
    let mut count = 0u64;
    while reader.read_byte_record(&mut record).unwrap() {
        count += 1;
    }
    println!("{count} records");
}
PROGRAM
    (cd "$work/rust" && cargo build --release --offline) > "$work/log" 2>&1 || cat "$work/log" >&2
fi

for trips in ${1:-20000 50000}; do
    folder=$work/city$trips
    python3 bench/make_timetable.py "$trips" "$folder"
    echo "$((trips * 20)) stop times"
    measured "hub check" "$hub" check "$folder.toml"
    measured "wc -l" wc -l "$folder/stop_times.txt"
    [ ! -x "$work/rust/target/release/count_records" ] || measured "Rust's csv" "$work/rust/target/release/count_records" "$folder/stop_times.txt"
done
