//! Names the folder of the native libraries, which BENCH_NATIVE holds. BENCH_STAMP is a sum of them.
fn main() {
    println!("cargo:rerun-if-env-changed=BENCH_NATIVE");
    println!("cargo:rerun-if-env-changed=BENCH_STAMP");
    if let Ok(folder) = std::env::var("BENCH_NATIVE") {
        println!("cargo:rustc-link-search=native={folder}");
    }
}
