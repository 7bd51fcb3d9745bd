//! Status files of the running kernel: this process's own, those of its children in other credentials, and those of every process that can be seen.
//!
//! What a child's file has to say is worked out by the paper's rules from what this process's own file says. A child that this process may not make
//! is left out, and standard error says which and why.

mod children;
mod values;

use std::fs;
use std::io::{self, Write};

use children::{make, why_not, CHILDREN};
use urrezkalu::{compare_status, StatusComparison, LONGEST_LIST};
use values::{own_status, values, Values, ALL, LAST};

/// Checks that the status file gives just this list beside the sheet of the predicted values.
fn gives(status: &[u8], predicted: &Values, expected: &str, what: &str) {
    let mut list = [0; LONGEST_LIST];
    match compare_status(status, &predicted.sheet(), &mut list) {
        StatusComparison::Listed { length } => {
            assert_eq!(String::from_utf8_lossy(&list[..length]), expected, "{what}");
        }
        refusal => panic!("{what}: {refusal}:\n{}", status.escape_ascii()),
    }
}

#[test]
fn this_process() {
    let status = own_status();
    let own = values(&status);
    let expected = own.list_beside(&own);
    gives(status.as_bytes(), &own, &expected, "this process");
    // A kernel that has no more than the 41 capabilities.
    if (own.permitted | own.inheritable | own.bounding) & !ALL == 0 {
        assert_eq!(expected, LAST);
    }
}

#[test]
fn each_value_is_told_from_another() {
    let status = own_status();
    let own = values(&status);
    let other = |change: &dyn Fn(&mut Values)| {
        let mut other = own;
        change(&mut other);
        gives(status.as_bytes(), &other, &own.list_beside(&other), &format!("beside {other:x?}"));
    };
    for place in 0..4 {
        other(&|values| values.ids[place] = u64::from(values.ids[place] == 0));
    }
    other(&|values| values.bounding ^= 1 << 13);
    other(&|values| values.nnp ^= 1);
    // The other sets go together in valid credentials. None is full and empty at once, so that each is listed beside one of these.
    let sets = |values: &mut Values, set| {
        (values.permitted, values.inheritable, values.effective, values.ambient) = (set, set, set, set);
    };
    other(&|values| sets(values, ALL));
    other(&|values| sets(values, 0));
}

// Processes come and go: one that is gone when its file is read is passed over.
#[test]
fn every_process_that_can_be_seen() {
    let mut seen = 0;
    for entry in fs::read_dir("/proc").expect("/proc can be read") {
        let path = entry.expect("/proc can be read").path();
        let is_process =
            path.file_name().is_some_and(|name| name.to_string_lossy().bytes().all(|byte| byte.is_ascii_digit()));
        let Some(status) = is_process.then(|| fs::read(path.join("status")).ok()).flatten() else { continue };
        let found = values(&String::from_utf8_lossy(&status));
        gives(&status, &found, &found.list_beside(&found), &path.display().to_string());
        seen += 1;
    }
    assert!(seen > 0, "this process at least is there");
}

#[test]
fn children_in_other_credentials() {
    let own = values(&own_status());
    let mut left_out = Vec::new();
    for child in &CHILDREN {
        if let Some(reason) = why_not(child, &own) {
            left_out.push(format!("{} ({reason})", child.name));
            continue;
        }
        let waiting = make(child, &own);
        let status = fs::read(format!("/proc/{}/status", waiting.process)).expect("the child's status can be read");
        let mut predicted = own;
        (child.predict)(&mut predicted);
        gives(&status, &predicted, &predicted.list_beside(&predicted), child.name);
        // And beside this process's own values, in which most children differ.
        gives(&status, &own, &predicted.list_beside(&own), child.name);
    }
    // Not by a macro, whose output a test that passes does not show.
    let made = CHILDREN.len() - left_out.len();
    let left_out = if left_out.is_empty() { "none".to_owned() } else { left_out.join(", ") };
    let line = format!("real status files: {made} children in other credentials; left out: {left_out}\n");
    io::stderr().write_all(line.as_bytes()).expect("standard error can be written");
}
