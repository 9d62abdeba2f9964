//! Prints the text of scenario scripts, played by the proved library: `scenario FILE...`.

use compare::binding::call::exported;
use compare::scenario::play;

fn main() {
    for file in std::env::args().skip(1) {
        let script = std::fs::read_to_string(&file).unwrap_or_else(|error| panic!("{file}: {error}"));
        print!("{}", play(&script, exported).unwrap_or_else(|wrong| panic!("{file}: {wrong}")));
    }
}
