//! RE2.
use drivers::{drive, shim::Shimmed, Direct};

#[link(name = "shim_re2", kind = "static")]
unsafe extern "C" {}
#[link(name = "re2")]
unsafe extern "C" {}
#[link(name = "stdc++")]
unsafe extern "C" {}

drivers::shim!(
    Re2,
    shim_re2_compile,
    shim_re2_search,
    shim_re2_spans,
    shim_re2_free
);

fn main() {
    drive::<Direct<Shimmed<Re2>>>();
}
