// Links the two archives that `tests/library bench` and `tests/library station_bench` wrote, from the folder that examples/rust/run names.
fn main() {
    println!("cargo:rerun-if-env-changed=FULKIBONO_LIBRARY_DIR");
    let dir = std::env::var("FULKIBONO_LIBRARY_DIR").expect("run examples/rust/run, which sets FULKIBONO_LIBRARY_DIR");
    println!("cargo:rustc-link-search=native={dir}");
    for archive in ["bench", "station_bench"] {
        println!("cargo:rerun-if-changed={dir}/lib{archive}.a");
        println!("cargo:rustc-link-lib=static={archive}");
    }
}
