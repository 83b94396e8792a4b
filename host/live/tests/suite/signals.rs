//! What signals mean, and their names.

use live::system::signals::{Meaning, Signal};

#[test]
fn each_has_its_name_and_meaning() {
    for (number, name, meaning) in [
        (1, "SIGHUP", Meaning::Reload),
        (2, "SIGINT", Meaning::End),
        (3, "SIGQUIT", Meaning::End),
        (13, "SIGPIPE", Meaning::Nothing),
        (15, "SIGTERM", Meaning::End),
        (40, "signal 40", Meaning::Nothing),
    ] {
        let signal = Signal(number);
        assert_eq!((signal.to_string().as_str(), signal.meaning()), (name, meaning));
    }
}
