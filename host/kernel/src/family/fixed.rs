//! Slot plans that are run whatever the seed: what a fork copies, calls beside one another, slots taken again, all slots in use, every departure in a
//! thread that was forked and in one that forked, and the examples.

use super::planted::witness;
use super::{SlotPlan, SlotStep, SLOTS};
use crate::attribute::version_2;
use crate::credentials::*;
use crate::step::*;
use crate::witnesses::witnesses;

const USER: u32 = 1000;
const NET_RAW: u64 = 1 << 13;

fn plan(name: &str, credentials: Credentials, steps: Vec<SlotStep>) -> SlotPlan {
    SlotPlan { name: name.to_owned(), start: Thread { credentials, member: None }, steps }
}

// All that root can have.
fn root() -> Credentials {
    Credentials {
        permitted: FULL,
        inheritable: FULL & !NET_RAW,
        effective: FULL,
        bounding: FULL,
        ambient: 1 << 10,
        ..Credentials::default()
    }
}

// Each of the fifteen fields another value than in any other field.
fn apart() -> Credentials {
    Credentials {
        uids: Ids { real: 1001, effective: 1002, saved: 1003, filesystem: 1004 },
        gids: Ids { real: 2001, effective: 2002, saved: 2003, filesystem: 2004 },
        permitted: 0xff_ffff,
        inheritable: 0xf_fff0,
        effective: 0xff00,
        bounding: FULL & !0xf0_0000,
        ambient: 0xff0,
        securebits: 0x0c,
        nnp: true,
    }
}

/// All slot plans but the examples.
pub fn all() -> Vec<SlotPlan> {
    let single = vec![again(), orphans(), last(), crowd(), chain(), operands(), witness()];
    [copies(), beside(), departures(), single].into_iter().flatten().collect()
}

// What a fork copies: fifteen values apart, every value of the securebits, and a child's child.
fn copies() -> Vec<SlotPlan> {
    let line = || (0..4).map(SlotStep::fork).collect();
    let mut plans = vec![plan("fifteen values apart", apart(), line()), plan("root", root(), line())];
    for securebits in 0..=SECBITS_OF_THE_PAPER {
        let steps = vec![SlotStep::fork(0), SlotStep::new(1, Step::new(GET_SECUREBITS))];
        plans.push(plan(
            &format!("fork with securebits {securebits:02x}"),
            Credentials { securebits, ..root() },
            steps,
        ));
    }
    plans
}

// Each call once in a parent and once in a child, with a third thread looking on.
fn beside() -> Vec<SlotPlan> {
    let id = u64::from(USER);
    let calls = [
        Step::launch(USER, SET_USER_ID, &version_2(NET_RAW, NET_RAW, true)),
        Step::with(CAPSET, NET_RAW, NET_RAW, 0),
        Step::with(BOUNDING_DROP, 13, 0, 0),
        Step::with(BOUNDING_READ, 13, 0, 0),
        Step::with(AMBIENT_RAISE, 12, 0, 0),
        Step::with(AMBIENT_LOWER, 10, 0, 0),
        Step::with(AMBIENT_IS_SET, 10, 0, 0),
        Step::new(AMBIENT_CLEAR),
        Step::with(SET_SECUREBITS, 0x2f, 0, 0),
        Step::new(GET_SECUREBITS),
        Step::with(SET_KEEP_CAPS, 1, 0, 0),
        Step::new(GET_KEEP_CAPS),
        Step::with(SET_NO_NEW_PRIVS, 1, 0, 0),
        Step::new(GET_NO_NEW_PRIVS),
        Step::with(SETUID, id, 0, 0),
        Step::with(SETREUID, id, id, 0),
        Step::with(SETRESUID, id, id + 1, id + 2),
        Step::with(SETFSUID, id, 0, 0),
        Step::with(SETGID, id, 0, 0),
        Step::with(SETREGID, id, id, 0),
        Step::with(SETRESGID, id, id + 1, id + 2),
        Step::with(SETFSGID, id, 0, 0),
    ];
    let in_slot = |call: &Step, slot: usize| {
        let steps = vec![SlotStep::fork(0), SlotStep::fork(1), SlotStep::new(slot, call.clone()), SlotStep::fork(slot)];
        plan(&format!("{} in slot {slot}, of three threads", call_name(call.call)), root(), steps)
    };
    calls.iter().flat_map(|call| [0, 1].map(|slot| in_slot(call, slot))).collect()
}

// Each departure's own step, in a thread that has forked and in the child. Where the child asks to be traced its parent has exited, so that it is the
// harness's.
fn departures() -> Vec<SlotPlan> {
    let mut plans = Vec::new();
    for witness in witnesses() {
        let step = &witness.steps[0];
        let asks = step.call == EXECVE && step.flagged(TRACED) && step.setting.tracer == Tracer::Asked;
        for slot in [0, 1] {
            let orphaning = (asks && slot == 1).then(|| SlotStep::exit(0));
            let rest = [SlotStep::new(slot, step.clone()), SlotStep::fork(slot)];
            let steps = [SlotStep::fork(0)].into_iter().chain(orphaning).chain(rest).collect();
            let name = format!("{}, in slot {slot}", witness.name);
            plans.push(SlotPlan { name, start: witness.start, steps });
        }
    }
    plans
}

// A child exits, and the next one has its slot and none of what it held.
fn again() -> SlotPlan {
    let steps = vec![
        SlotStep::fork(0),
        SlotStep::fork(0),
        SlotStep::new(1, Step::with(SETUID, u64::from(USER), 0, 0)),
        SlotStep::new(1, Step::with(SET_NO_NEW_PRIVS, 1, 0, 0)),
        SlotStep::exit(1),
        SlotStep::new(1, Step::new(GET_NO_NEW_PRIVS)),
        SlotStep::fork(2),
        SlotStep::new(1, Step::new(GET_NO_NEW_PRIVS)),
        SlotStep::new(1, Step::launch(USER, SET_USER_ID, &[])),
    ];
    plan("a slot taken again", root(), steps)
}

// The first thread exits, its children go on, and slot 0 is another's.
fn orphans() -> SlotPlan {
    let steps = vec![
        SlotStep::fork(0),
        SlotStep::fork(1),
        SlotStep::exit(0),
        SlotStep::new(1, Step::with(BOUNDING_DROP, 13, 0, 0)),
        SlotStep::fork(1),
        SlotStep::new(0, Step::with(BOUNDING_READ, 13, 0, 0)),
        SlotStep::exit(1),
        SlotStep::new(2, Step::launch(USER, SET_USER_ID, &[])),
        SlotStep::fork(2),
        SlotStep::new(1, Step::with(BOUNDING_READ, 13, 0, 0)),
    ];
    plan("slot 0 taken again", root(), steps)
}

// The last thread exits, and every later step names a free slot.
fn last() -> SlotPlan {
    let steps = vec![SlotStep::exit(0), SlotStep::fork(0), SlotStep::exit(0), SlotStep::new(95, Step::new(99))];
    plan("the last thread exits", apart(), steps)
}

// One thread forks until no slot is free and once more; every third exits; their slots are taken again from below.
fn crowd() -> SlotPlan {
    let mut steps = vec![SlotStep::fork(0); SLOTS];
    steps.extend((1..SLOTS).step_by(3).map(SlotStep::exit));
    steps.push(SlotStep::new(95, Step::with(SETUID, u64::from(USER), 0, 0)));
    steps.extend((0..5).map(|_| SlotStep::fork(95)));
    steps.push(SlotStep::new(0, Step::launch(0, 0, &[])));
    plan("all slots in use", root(), steps)
}

// Each thread forks the next and drops one capability more from its own bounding set, until no slot is free.
fn chain() -> SlotPlan {
    let mut steps = Vec::new();
    for slot in 0..SLOTS {
        let capability = slot as u64 % (CAP_LAST_CAP + 1);
        steps.push(SlotStep::fork(slot));
        steps.push(SlotStep::new(slot, Step::with(BOUNDING_DROP, capability, 0, 0)));
    }
    plan("a chain of all slots", root(), steps)
}

// fork(2) and exit(2) do not look at what the paper refuses.
fn operands() -> SlotPlan {
    let spoilt = |call: u32, slot: usize| SlotStep::new(slot, Step::with(call, 0, 1, 0));
    let steps = vec![spoilt(FORK, 0), spoilt(FORK, 1), spoilt(EXIT, 1), SlotStep::fork(2), spoilt(EXIT, 0)];
    plan("operands that are not used", root(), steps)
}
