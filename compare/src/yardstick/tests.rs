//! The yardstick through the same comparison as the proved code. By hand, and
//! only for as long as the rules are the base's: a request makes them differ.

use second::cases::Cases;
use second::testing::run_fixed;

use crate::bench::Clock;
use crate::differ::compare_calls;

#[test]
#[ignore = "by hand: the yardstick is held at the base's rules"]
fn yardstick_says_what_the_second_program_says_of_generated_cases() {
    for seed in [3, 41] {
        for (place, made) in Cases::new(seed).take(2000).enumerate() {
            if let Err(difference) = compare_calls(&Clock, &made.case) {
                panic!("case {place} of seed {seed}, the yardstick as proved: {difference}");
            }
        }
    }
}

#[test]
#[ignore = "by hand: the yardstick is held at the base's rules"]
fn yardstick_says_what_the_second_program_says_of_fixed_cases() {
    let fixed = run_fixed();
    assert!(fixed.iter().any(|ran| !ran.asked.is_empty()));
    for ran in fixed {
        for asked in &ran.asked {
            if let Err(difference) = compare_calls(&Clock, asked) {
                panic!("{}, the yardstick as proved: {difference}", ran.name);
            }
        }
    }
}
