//! PCRE2, with its JIT compiler or without.
use drivers::{drive, shim::Shimmed, Direct};

#[link(name = "shim_pcre2", kind = "static")]
unsafe extern "C" {}
#[link(name = "pcre2-8")]
unsafe extern "C" {}

drivers::shim!(
    Pcre2,
    shim_pcre2_compile,
    shim_pcre2_search,
    shim_pcre2_spans,
    shim_pcre2_free
);

fn main() {
    drive::<Direct<Shimmed<Pcre2>>>();
}
