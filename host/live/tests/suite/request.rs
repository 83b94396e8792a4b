//! What the next process asks for.

use crate::support::*;
use live::handover::request::Request;
use nidhaaguf::Protocol;

fn request() -> Request {
    Request::new(("192.0.2.10:5432".parse().unwrap(), Protocol::Tcp))
}

#[test]
fn requests_are_lines() {
    let request = request();
    assert_eq!(request.line(), "take-over 3 192.0.2.10:5432 tcp\n");
    assert_eq!(Request::read(&request.line()), Some(Ok(request)));
    let other = Request { layout: u32::MAX, protocol: Protocol::Udp, ..request };
    assert_eq!(Request::read(&other.line()), Some(Ok(other)));
    for line in ["", "status", "take-overs 1 192.0.2.10:5432 tcp", "1 take-over"] {
        assert_eq!(Request::read(line), None);
    }
    let form = "expected `take-over LAYOUT ADDRESS:PORT PROTOCOL`";
    for (line, words) in [
        ("take-over", form),
        ("take-over 1 192.0.2.10:5432", form),
        ("take-over 1 192.0.2.10:5432 tcp now", form),
        ("take-over x 192.0.2.10:5432 tcp", "expected a layout's number, got \"x\""),
        (
            "take-over 4294967296 192.0.2.10:5432 tcp",
            "expected a layout's number, got \"4294967296\"",
        ),
        (
            "take-over 1 192.0.2.10 tcp",
            "expected an IPv4 address and a port, as 192.0.2.10:5432, got \"192.0.2.10\"",
        ),
        ("take-over 1 192.0.2.10:5432 sctp", "expected a protocol: tcp or udp, got \"sctp\""),
    ] {
        assert_eq!(Request::read(line), Some(Err(words.into())));
    }
}

#[test]
fn requests_for_another_director_are_refused() {
    let (instance, request) = (instance(), request());
    assert_eq!(request.check(&instance), Ok(()));
    let served = "is asked for, and 192.0.2.10:5432 tcp is served here";
    let service = "192.0.2.10:5433".parse().unwrap();
    for (other, words) in [
        (Request { layout: 2, ..request }, "layout 2 is asked for, and this program's is 3".into()),
        (Request { layout: 4, ..request }, "layout 4 is asked for, and this program's is 3".into()),
        (Request { service, ..request }, format!("the service 192.0.2.10:5433 tcp {served}")),
        (
            Request { protocol: Protocol::Udp, ..request },
            format!("the service 192.0.2.10:5432 udp {served}"),
        ),
    ] {
        assert_eq!(other.check(&instance), Err(words));
    }
}

/// A program of an earlier layout says so in these words, and is asked for that one; nobody else is.
#[test]
fn a_refusal_for_the_layout_alone_is_followed_by_another_request() {
    let request = request();
    for layout in [1, 2] {
        let refused = format!("layout 3 is asked for, and this program's is {layout}");
        assert_eq!(request.earlier(&refused), Some(Request { layout, ..request }));
    }
    for other in [
        "layout 3 is asked for, and this program's is 4",
        "layout 3 is asked for, and this program's is 3",
        "layout 3 is asked for, and this program's is 11",
        "layout 4 is asked for, and this program's is 1",
        "the service 192.0.2.10:5432 udp is asked for, and 192.0.2.10:5432 tcp is served here",
        "",
    ] {
        assert_eq!(request.earlier(other), None, "{other}");
    }
}
