//! The model without a machine: with every switch off it is the proved library, and each switch changes something. And status files without one.

use crate::calls::perform;
use crate::credentials::{Credentials, Thread, FULL};
use crate::departures::{Switches, ALL};
use crate::generator::Generator;
use crate::image::Image;
use crate::prediction;
use crate::random::Random;
use crate::status::{expected, list, LAST_LINE};
use crate::step::{Plan, Step};

const PLANS: u64 = 20_000;

// Every step of many random plans that begins with a sheet, also those that no machine can be asked, with the thread before it.
fn for_each_step(seed: u64, mut look: impl FnMut(&Thread, &Step)) {
    let image = Image::new([].iter());
    let mut generator = Generator { random: Random::new(seed), image: &image, permitted: FULL, bounding: FULL };
    for _ in 0..PLANS {
        let Plan { start, steps, .. } = generator.plan(String::new());
        let mut thread = start;
        for step in &steps {
            if thread.credentials.has_sheet() {
                look(&thread, step);
            }
            thread = perform(Switches::EVERY, &thread, step).after;
        }
    }
}

#[test]
fn with_every_switch_off_the_model_is_the_library() {
    for_each_step(7, |thread, step| {
        let (paper, library) = (perform(Switches::NONE, thread, step), prediction::outcome(thread, step));
        assert!(paper.agrees(&library), "{thread:x?}\n{step:x?}\nmodel {paper:x?}\nlibrary {library:x?}");
    });
}

#[test]
fn every_switch_changes_something() {
    let mut changed = [false; ALL.len()];
    for_each_step(8, |thread, step| {
        let kernel = perform(Switches::EVERY, thread, step);
        for departure in ALL {
            changed[departure as usize] |= !perform(Switches::EVERY.without(departure), thread, step).agrees(&kernel);
        }
    });
    for departure in ALL {
        assert!(changed[departure as usize], "{}", departure.name());
    }
}

/// A status file as a kernel writes it, some lines left out.
pub fn status_file(credentials: &Credentials) -> String {
    let Credentials { uids, permitted, inheritable, effective, bounding, ambient, nnp, .. } = credentials;
    format!(
        "Name:\tlaunched\nUid:\t{}\t{}\t{}\t{}\nGid:\t0\t0\t0\t0\nCapInh:\t{inheritable:016x}\nCapPrm:\t{permitted:016x}\n\
         CapEff:\t{effective:016x}\nCapBnd:\t{bounding:016x}\nCapAmb:\t{ambient:016x}\nNoNewPrivs:\t{}\nSeccomp:\t0\n",
        uids.real,
        uids.effective,
        uids.saved,
        uids.filesystem,
        u8::from(*nnp)
    )
}

#[test]
fn a_status_file_lists_just_where_kernel_and_library_part() {
    let (mut same, mut differ) = (0, 0);
    for_each_step(9, |thread, step| {
        let kernel = perform(Switches::EVERY, thread, step).after.credentials;
        let library = prediction::outcome(thread, step).after.credentials;
        let status = status_file(&kernel);
        assert_eq!(list(&kernel, status.as_bytes()), LAST_LINE);
        let listed = list(&library, status.as_bytes());
        assert_eq!(listed, expected(&library, &kernel), "{thread:x?}\n{step:x?}");
        *if listed == LAST_LINE { &mut same } else { &mut differ } += 1;
    });
    assert!(same > 0 && differ > 0, "{same} times nothing differs, {differ} times something");
}
