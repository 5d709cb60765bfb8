//! What the original takes from its `uucore` crate, cut down to what the oracle
//! needs, and the cube of the second build. `fmt.rs` itself decides what the
//! options mean; here they are only told apart.

use std::collections::HashMap;

#[macro_export]
macro_rules! crash(
    ($code:expr, $($message:tt)+) => ({
        eprintln!("fmt: {}", format!($($message)+));
        ::std::process::exit($code)
    })
);

#[macro_export]
macro_rules! new_coreopts(
    ($($text:expr),*) => ($crate::Options::default())
);

/// The options declared so far: does this one take a value?
#[derive(Default)]
pub struct Options {
    takes_value: HashMap<String, bool>,
}

/// The options given, each with its value (empty for a flag).
pub struct Matches {
    given: HashMap<String, String>,
}

impl Options {
    pub fn optflag(mut self, short: &str, _long: &str, _help: &str) -> Options {
        self.takes_value.insert(format!("-{}", short), false);
        self
    }

    pub fn optopt(mut self, short: &str, _long: &str, _help: &str, _hint: &str) -> Options {
        self.takes_value.insert(format!("-{}", short), true);
        self
    }

    pub fn parse(self, args: Vec<String>) -> Matches {
        let mut given = HashMap::new();
        let mut rest = args.into_iter();
        while let Some(arg) = rest.next() {
            let value = match self.takes_value.get(&arg) {
                Some(&false) => String::new(),
                Some(&true) => match rest.next() {
                    Some(value) => value,
                    None => crash!(1, "{} needs a value", arg),
                },
                None => crash!(1, "unknown argument {}", arg),
            };
            given.insert(arg, value);
        }
        Matches { given }
    }
}

impl Matches {
    pub fn opt_present(&self, short: &str) -> bool {
        self.given.contains_key(&format!("-{}", short))
    }

    pub fn opt_str(&self, short: &str) -> Option<String> {
        self.given.get(&format!("-{}", short)).cloned()
    }
}

/// The cube as two rounded multiplications, where the original calls `powf`.
pub trait Cube {
    fn cube(self) -> f32;
}

impl Cube for f32 {
    #[inline]
    fn cube(self) -> f32 {
        (self * self) * self
    }
}
