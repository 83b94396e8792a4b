//! Links the archive of the sum alone.

fn main() {
    archives::link(&["sums"]);
}
