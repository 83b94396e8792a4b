//! The largest weight and the divisor after a setup and after weights that are set, for every scheduler.

use crate::written::Written;
use std::fmt::Write;

fn of_scheduler(text: &mut String, scheduler: u8) {
    writeln!(
        text,
        "largest weight and divisor, scheduler {scheduler}: \
         weights 6, 4, 0; server 0's set to 3 and to 0, server 1's to 0"
    )
    .unwrap();
    let mut director = Written::set_up_weights(text, scheduler, &[6, 4, 0], 5);
    director.largest_and_divisor();
    for (number, weight) in [(0, 3), (0, 0), (1, 0)] {
        director.set_weight(number, weight);
        director.largest_and_divisor();
    }
}

pub fn largest_and_divisor(text: &mut String) {
    (1..=4).for_each(|scheduler| of_scheduler(text, scheduler));
}
