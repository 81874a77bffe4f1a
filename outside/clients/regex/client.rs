//! What is measured of `regex`.

macro_rules! client {
    ($name:ident) => {
        use ::$name::Regex;

        fn new() -> Regex {
            Regex::new(PATTERN).expect("it is one")
        }

        fn is_match(regex: &Regex) -> bool {
            regex.is_match(black_box(TEXT))
        }
    };
}
