//! Links the library's two archives.

fn main() {
    archives::link(&["nidhaaguf", "nidhaaguf_serve"]);
}
