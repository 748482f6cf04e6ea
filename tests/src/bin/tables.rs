//! Writes the example tables: `tables ROOT` writes the files of tables/ below ROOT.

use basilvault_tests::named;
use basilvault_tests::random::{self, Random};

fn main() {
    let root = std::env::args().nth(1).expect("the repository's folder");
    let mut r = Random::new(7);
    let mut damaged = named::t().bytes();
    damaged.swap(7, 10);
    let tables = [
        ("t", named::t().bytes()),
        ("atlas", named::atlas().bytes()),
        ("named_located", named::named_located().bytes()),
        ("unreachable_stack", named::unreachable_stack().bytes()),
        ("not_transitive", named::not_transitive().bytes()),
        ("joined_stack_symbols", named::joined_stack_symbols().bytes()),
        ("fewer_pairs", named::fewer_pairs().bytes()),
        ("more_classes", named::more_classes().bytes()),
        ("two_undone", named::two_undone().bytes()),
        ("copies", random::blown_up(&mut r, 20, true).bytes()),
        ("longest", named::longest().bytes()),
        ("damaged", damaged),
    ];
    for (name, bytes) in tables {
        std::fs::write(format!("{root}/tables/{name}.bin"), bytes).unwrap();
    }
}
