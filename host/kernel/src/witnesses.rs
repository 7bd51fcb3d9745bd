//! For each departure one plan of one step that shows it, as small as it can be.

use crate::attribute::{from_words, version_2, version_3};
use crate::credentials::{Credentials, Ids, Thread, FULL, LEAVE};
use crate::departures::{Departure, Departure::*, ALL};
use crate::step::*;

const NET_BIND_SERVICE: u64 = 1 << 10;
const NET_RAW: u64 = 1 << 13;
/// One more than the last capability.
const ABOVE: u64 = 41;

/// The user and another one; the thread's group, another one, and one that the thread is in besides its own.
const USER: u32 = 1000;
const OTHER: u32 = 1001;
const GROUP: u32 = 2000;
const OTHER_GROUP: u32 = 2001;
const MEMBER: u32 = 3000;

/// The plans, one for each departure.
pub fn witnesses() -> Vec<Plan> {
    ALL.into_iter().map(witness).collect()
}

fn witness(departure: Departure) -> Plan {
    let (start, step) = match departure {
        AttributeHighBitsMasked
        | AttributeOtherBitsIgnored
        | AttributeVersion3Honoured
        | AttributeVersion3OtherRoot
        | AttributeWithoutBytes => (user(), attribute(departure)),
        SetGroupIdToMemberGroup | FilesystemGroupApart => ambient(departure),
        SetGroupIdWithoutGroupExecution => (user(), without_group_execution()),
        NoNewPrivsReadsAttribute
        | NoNewPrivsCutsGain
        | NoNewPrivsCutsRoot
        | NoNewPrivsResetsEffectiveId
        | NoNewPrivsResetsEffectiveGroup => unsafe_launch(departure, 0),
        TracedHonoursSetId => (user(), seized(Step::launch(OTHER, TRACED | SET_USER_ID, &[]))),
        TracedReadsAttribute => (user(), seized(Step::launch(0, TRACED, &version_2(NET_RAW, 0, true)))),
        TracedCutsGain | TracedCutsRoot | TracedResetsEffectiveId | TracedResetsEffectiveGroup => {
            unsafe_launch(departure, TRACED)
        }
        CapsetHighBitsMasked => (user(), Step::with(CAPSET, 1 << ABOVE, 0, 0)),
        BoundingDropAsksFirst => (user(), Step::with(BOUNDING_DROP, ABOVE, 0, 0)),
        SecurebitsOfPrograms => (user(), Step::with(SET_SECUREBITS, 0x100, 0, 0)),
        SecurebitsUnknown => (user(), Step::with(SET_SECUREBITS, 0x1000, 0, 0)),
        WideIdCut => (user(), Step::with(SETUID, 1 << 32 | u64::from(USER), 0, 0)),
        UnusedOperandIgnored => (user(), Step::with(GET_SECUREBITS, 1, 0, 0)),
        SetresuidWithoutChange | SetresgidWithoutChange => without_change(departure),
    };
    Plan { name: departure.name().to_owned(), start, steps: vec![step] }
}

fn user() -> Thread {
    let credentials =
        Credentials { uids: Ids::all(USER), gids: Ids::all(GROUP), bounding: FULL, ..Credentials::default() };
    Thread { credentials, member: None }
}

fn seized(mut step: Step) -> Step {
    step.setting.tracer = Tracer::Seized;
    step
}

fn without_group_execution() -> Step {
    let mut step = Step::launch(0, SET_GROUP_ID, &[]).of_group(OTHER_GROUP);
    step.setting.without_group_execution = true;
    step
}

// Nothing given, and a filesystem ID that is not the effective one.
fn without_change(departure: Departure) -> (Thread, Step) {
    let mut start = user();
    let call = if departure == SetresuidWithoutChange {
        start.credentials.uids.filesystem = OTHER;
        SETRESUID
    } else {
        start.credentials.gids.filesystem = OTHER_GROUP;
        SETRESGID
    };
    (start, Step::with(call, u64::from(LEAVE), u64::from(LEAVE), u64::from(LEAVE)))
}

// An ambient capability and a launch that the kernel counts otherwise than the paper.
fn ambient(departure: Departure) -> (Thread, Step) {
    let mut start = user();
    start.credentials.permitted = NET_RAW;
    start.credentials.inheritable = NET_RAW;
    start.credentials.ambient = NET_RAW;
    let mut step = Step::launch(USER, 0, &[]);
    if departure == SetGroupIdToMemberGroup {
        start.member = Some(MEMBER);
        (step.b, step.c) = (SET_GROUP_ID, u64::from(MEMBER));
    } else {
        start.credentials.gids.filesystem = OTHER_GROUP;
    }
    (start, step)
}

// A launch under no-new-privs, or traced at the request of a thread without SYS_PTRACE.
fn unsafe_launch(departure: Departure, flags: u64) -> (Thread, Step) {
    let mut start = user();
    start.credentials.nnp = flags == 0;
    let mut step = Step::launch(0, flags, &[]);
    match departure {
        NoNewPrivsCutsRoot | TracedCutsRoot => start.credentials.uids = Ids::all(0),
        NoNewPrivsResetsEffectiveId | TracedResetsEffectiveId => {
            start.credentials.uids = Ids { real: USER, ..Ids::all(0) }
        }
        NoNewPrivsResetsEffectiveGroup | TracedResetsEffectiveGroup => {
            start.credentials.uids = Ids::all(0);
            start.credentials.gids = Ids { real: GROUP, ..Ids::all(OTHER_GROUP) };
        }
        NoNewPrivsReadsAttribute => {
            start.credentials.permitted = NET_RAW;
            step.attribute = version_2(NET_RAW, 0, true);
        }
        _ => {
            start.credentials.permitted = NET_RAW;
            step.attribute = version_2(NET_RAW | NET_BIND_SERVICE, 0, true);
        }
    }
    (start, step)
}

fn attribute(departure: Departure) -> Step {
    let bytes = match departure {
        AttributeHighBitsMasked => version_2(NET_RAW | 1 << ABOVE, 0, true),
        AttributeOtherBitsIgnored => from_words(&[0x0200_0003, NET_RAW as u32, 0, 0, 0]),
        AttributeVersion3Honoured => version_3(NET_RAW, 0, true, 0),
        AttributeVersion3OtherRoot => version_3(NET_RAW, 0, true, USER),
        _ => Vec::new(),
    };
    let mut step = Step::launch(0, 0, &bytes);
    step.setting.attached_without_bytes = bytes.is_empty();
    step
}

#[cfg(test)]
mod tests {
    use super::*;
    use crate::calls::perform;
    use crate::departures::Switches;
    use crate::prediction;

    #[test]
    fn a_witness_needs_its_departure_and_differs_from_the_library() {
        for (departure, plan) in ALL.into_iter().zip(witnesses()) {
            let kernel = perform(Switches::EVERY, &plan.start, &plan.steps[0]);
            let without = perform(Switches::EVERY.without(departure), &plan.start, &plan.steps[0]);
            assert!(!without.agrees(&kernel), "{}", plan.name);
            assert!(!prediction::outcome(&plan.start, &plan.steps[0]).agrees(&kernel), "{}", plan.name);
        }
    }
}
