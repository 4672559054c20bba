//! Oniguruma.
use drivers::{drive, shim::Shimmed, Direct};

#[link(name = "shim_onig", kind = "static")]
unsafe extern "C" {}
#[link(name = "onig")]
unsafe extern "C" {}

drivers::shim!(
    Onig,
    shim_onig_compile,
    shim_onig_search,
    shim_onig_spans,
    shim_onig_free
);

fn main() {
    drive::<Direct<Shimmed<Onig>>>();
}
