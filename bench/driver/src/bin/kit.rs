//! The toolchain's crate `regex`.
drivers::linked_library!(Kit, "kit_regex_c", false, kit_regex_run);
