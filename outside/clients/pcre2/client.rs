//! What is measured of `pcre2`, whose patterns are compiled to machine code here.

macro_rules! client {
    ($name:ident) => {
        use ::$name::bytes::{Regex, RegexBuilder};

        fn new() -> Regex {
            let mut builder = RegexBuilder::new();
            builder.jit(true).build(PATTERN).expect("it is one")
        }

        fn is_match(regex: &Regex) -> bool {
            let text = black_box(TEXT).as_bytes();
            regex.is_match(text).expect("it can be matched")
        }
    };
}
