//! Header checksums that don't verify, and one that does though a fresh one differs: P11's packet with one thing changed.

use crate::written::Written;
use reference::packets::bytes_of;

const TRANSPORT: &str = "9C401538 00000000 00000000 50020000 325F0000";

/// A header before P11's transport part.
fn packet(header: &str) -> Vec<u8> {
    bytes_of(&[header, TRANSPORT].concat())
}

fn not_valid(text: &mut String) {
    text.push_str(
        "header checksum: a bit of the header turned, the same as a fragment, the same with version 6\n",
    );
    let mut director = Written::one_server(text, 5);
    director.inbound(packet("45000028 00004000 41066EC5 0A000001 C000020A"), 1);
    director.inbound(packet("45000028 00006000 41066EC5 0A000001 C000020A"), 1);
    director.inbound(packet("65000028 00004000 41066EC5 0A000001 C000020A"), 1);
}

fn valid(text: &mut String) {
    text.push_str("header checksum: a bit of the transport part turned\n");
    let mut turned = packet("45000028 00004000 40066EC5 0A000001 C000020A");
    turned[39] ^= 1;
    Written::one_server(text, 5).inbound(turned, 1);
    text.push_str("header checksum: ffff in place of 0000\n");
    let ffff = packet("45000028 6EC54000 4006FFFF 0A000001 C000020A");
    Written::one_server(text, 5).inbound(ffff, 1);
}

pub fn header_checksums(text: &mut String) {
    not_valid(text);
    valid(text);
}
