//! This library.
drivers::linked_library!(Port, "fancy_regex_c", true, fancy_regex_run);
