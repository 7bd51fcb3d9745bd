//! Plans that are run whatever the seed: the paper's cases ("On the bench" and "Ambient lost too easily"), points that it leaves to the reader
//! (docs/DECISIONS.md, 23), every value of the securebits, every choice of IDs for the ID calls, every way that a file's owner and group can count, and
//! the examples.

use crate::attribute::version_2;
use crate::credentials::*;
use crate::family::{self, SlotPlan};
use crate::step::*;
use std::path::Path;
use std::{fs, io};

const ROOT: u32 = 0;
const USER: u32 = 1000;
const NET_ADMIN: u64 = 1 << 12;
const NET_BIND_SERVICE: u64 = 1 << 10;
const NET_RAW: u64 = 1 << 13;
const SETUID_ALONE: u64 = 1 << 7;
const SYS_RAWIO: u64 = 1 << 17;

fn plan(name: &str, credentials: Credentials, steps: Vec<Step>) -> Plan {
    Plan { name: name.to_owned(), start: Thread { credentials, member: None }, steps }
}

// The start of the paper's cases "unless said".
fn user() -> Credentials {
    Credentials { uids: Ids::all(USER), gids: Ids::all(USER), bounding: FULL, ..Credentials::default() }
}

/// The paper's cases, some of two plans.
pub fn cases() -> Vec<Plan> {
    let user = user();
    let root = Credentials { uids: Ids::all(ROOT), ..user };
    let with =
        |set: u64, ambient: u64| Credentials { permitted: set, inheritable: set, effective: set, ambient, ..user };
    let all = Credentials { permitted: FULL, effective: FULL, ..root };
    let without_rawio = Credentials { bounding: FULL & !SYS_RAWIO, ..user };
    let keeping = |from: Credentials| Credentials { securebits: SECBIT_KEEP_CAPS, ..from };
    let split = Credentials {
        uids: Ids { effective: USER, ..Ids::all(ROOT) },
        permitted: SETUID_ALONE | NET_ADMIN,
        effective: NET_ADMIN,
        ..keeping(user)
    };
    let plain = || vec![Step::launch(ROOT, 0, &[])];
    let launch = |flags: u64, attribute: Vec<u8>| vec![Step::launch(ROOT, flags, &attribute)];
    let thrice = u64::from(USER);
    vec![
        plan("case 1", with(NET_RAW, 0), plain()),
        plan("case 2", with(NET_RAW, NET_RAW), plain()),
        plan("as case 2, owner 1000", with(NET_RAW, NET_RAW), vec![Step::launch(USER, SET_USER_ID, &[])]),
        plan("as case 2, owner 1001", with(NET_RAW, NET_RAW), vec![Step::launch(1001, SET_USER_ID, &[])]),
        plan("case 3", with(NET_RAW, NET_RAW), launch(0, version_2(NET_BIND_SERVICE, 0, true))),
        plan(
            "case 4",
            Credentials { inheritable: SYS_RAWIO, ..without_rawio },
            launch(0, version_2(0, SYS_RAWIO, false)),
        ),
        plan("case 5, bit on", without_rawio, launch(0, version_2(SYS_RAWIO, 0, true))),
        plan("case 5, bit off", without_rawio, launch(0, version_2(SYS_RAWIO, 0, false))),
        plan("case 6", Credentials { uids: Ids::all(ROOT), ..without_rawio }, plain()),
        plan("case 7", user, launch(SET_USER_ID, version_2(0, 0, false))),
        plan("case 8", user, launch(SET_USER_ID, Vec::new())),
        plan("case 9", all, vec![Step::with(SETUID, thrice, 0, 0)]),
        plan("case 9, keep-caps", keeping(all), vec![Step::with(SETUID, thrice, 0, 0)]),
        plan("case 10", split, vec![Step::with(SETRESUID, thrice, thrice, thrice)]),
        plan("case 11", all, vec![Step::with(SETFSUID, thrice, 0, 0)]),
        plan("case 12", Credentials { securebits: 0x30, ..user }, plain()),
        plan("case 13", user, vec![Step::with(BOUNDING_READ, 40, 0, 0), Step::with(BOUNDING_READ, 41, 0, 0)]),
    ]
}

/// The points of decision 23 in which the kernel does what was decided, each as one plan. For the others see `witnesses`.
pub fn points() -> Vec<Plan> {
    let user = user();
    let real_root = Credentials { uids: Ids { real: ROOT, ..Ids::all(USER) }, ..user };
    let effective_root = Credentials { uids: Ids { real: USER, ..Ids::all(ROOT) }, ..user };
    let ambient = Credentials { permitted: NET_RAW, inheritable: NET_RAW, ambient: NET_RAW, ..user };
    let apart = Credentials { uids: Ids { effective: 1001, saved: 1002, filesystem: 1003, real: USER }, ..user };
    let launch = |owner: u32, flags: u64, attribute: Vec<u8>| vec![Step::launch(owner, flags, &attribute)];
    let (leave, given) = (u64::from(LEAVE), u64::from(USER));
    vec![
        plan("real ID 0 alone, bit off", real_root, launch(ROOT, 0, version_2(NET_RAW, 0, false))),
        plan("real ID 0 alone, bit on", real_root, launch(ROOT, 0, version_2(NET_RAW, 0, true))),
        plan("effective ID 0 alone, attached", effective_root, launch(ROOT, 0, version_2(NET_RAW, 0, true))),
        plan("effective ID 0 alone, ignored", effective_root, launch(ROOT, NOSUID, version_2(NET_RAW, 0, true))),
        plan(
            "rule f for root",
            Credentials { bounding: FULL & !SYS_RAWIO, ..Credentials { uids: Ids::all(ROOT), ..user } },
            launch(ROOT, 0, version_2(SYS_RAWIO, 0, true)),
        ),
        plan(
            "raise of an ambient one",
            Credentials { securebits: SECBIT_NO_CAP_AMBIENT_RAISE, ..ambient },
            vec![Step::with(AMBIENT_RAISE, 13, 0, 0)],
        ),
        plan("the old securebits", user, vec![Step::with(SET_SECUREBITS, 0, 0, 0)]),
        plan("setreuid, nothing given", apart, vec![Step::with(SETREUID, leave, leave, 0)]),
        plan("setreuid, the old real ID", apart, vec![Step::with(SETREUID, given, leave, 0)]),
    ]
}

/// Every value of the securebits as a start: read, kept over an ID change, and left by a launch.
pub fn securebits() -> Vec<Plan> {
    let root = Credentials { uids: Ids::all(ROOT), permitted: FULL, effective: FULL, ..user() };
    let from = |securebits: u32| {
        let steps = vec![
            Step::new(GET_SECUREBITS),
            Step::with(SET_KEEP_CAPS, 1, 0, 0),
            Step::with(SETUID, u64::from(USER), 0, 0),
            Step::launch(ROOT, SET_USER_ID, &[]),
            Step::new(GET_SECUREBITS),
        ];
        plan(&format!("securebits {securebits:02x}"), Credentials { securebits, ..root }, steps)
    };
    (0..=SECBITS_OF_THE_PAPER).map(from).collect()
}

/// Each ID call with every choice of operands among the four IDs, 0 and 4294967295, with wide IDs, and with operands that it does not use; with and
/// without the capability; once for users and once for groups.
pub fn id_calls() -> Vec<Plan> {
    let apart = Ids { real: USER, effective: 1001, saved: 1002, filesystem: 1003 };
    let able = Credentials { permitted: FULL, ..user() };
    let of_users = (Credentials { uids: apart, ..able }, CAP_SETUID, USER_ID_CALLS);
    let of_groups = (Credentials { gids: apart, ..able }, CAP_SETGID, GROUP_ID_CALLS);
    let mut plans = Vec::new();
    for (start, capability, calls) in [of_users, of_groups] {
        for effective in [1 << capability, FULL & !(1 << capability)] {
            for step in id_steps(calls, apart) {
                let Step { call, a, b, c, .. } = step;
                let name = format!("{} {a} {b} {c}, effective {effective:x}", call_name(call));
                plans.push(plan(&name, Credentials { effective, ..start }, vec![step]));
            }
        }
    }
    plans
}

fn id_steps([set, set_two, set_three, set_filesystem]: [u32; 4], ids: Ids) -> Vec<Step> {
    let choices = [ids.real, ids.effective, ids.saved, ids.filesystem, ROOT, LEAVE].map(u64::from);
    let mut steps = Vec::new();
    for a in choices {
        steps.extend([set, set_filesystem].map(|call| Step::with(call, a, 0, 0)));
        for b in choices {
            steps.push(Step::with(set_two, a, b, 0));
            steps.extend(choices.map(|c| Step::with(set_three, a, b, c)));
        }
    }
    let real = u64::from(ids.real);
    for wide in [real, u64::from(LEAVE)].map(|id| id | 1 << 32) {
        steps.extend([set, set_filesystem].map(|call| Step::with(call, wide, 0, 0)));
        steps.extend([(wide, real), (real, wide)].map(|(a, b)| Step::with(set_two, a, b, 0)));
        let one_of_three = [(wide, real, real), (real, wide, real), (real, real, wide)];
        steps.extend(one_of_three.map(|(a, b, c)| Step::with(set_three, a, b, c)));
    }
    for call in [set, set_two, set_filesystem] {
        steps.push(Step::with(call, real, real, 1));
    }
    steps
}

/// Launches of a file of each user ID that a thread has and of another one, of its effective group and of another one, by every combination of flags,
/// with and without no-new-privs.
pub fn owners() -> Vec<Plan> {
    let uids = Ids { real: USER, effective: 1001, saved: 1002, filesystem: 1003 };
    let ambient = Credentials { uids, permitted: NET_RAW, inheritable: NET_RAW, ambient: NET_RAW, ..user() };
    let mut plans = Vec::new();
    for nnp in [false, true] {
        for owner in [uids.real, uids.effective, uids.saved, uids.filesystem, 1004] {
            for group in [ambient.gids.effective, 1001] {
                for flags in 0..NO_FILE_CAPS {
                    let name = format!("no-new-privs {nnp}, launch of owner {owner} and group {group}, flags {flags}");
                    let step = Step::launch(owner, flags, &[]).of_group(group);
                    plans.push(plan(&name, Credentials { nnp, ..ambient }, vec![step]));
                }
            }
        }
    }
    plans
}

/// Launches of a file of each group that a thread has, of one that it is in besides and of one that it is not in, by every combination of flags, with
/// and without no-new-privs, from a thread that is in its effective group and from one that is not.
pub fn groups() -> Vec<Plan> {
    let together = Ids { real: 2000, effective: 2001, saved: 2002, filesystem: 2001 };
    let apart = Ids { filesystem: 2003, ..together };
    let (member, outside) = (3000, 3001);
    let ambient = Credentials { permitted: NET_RAW, inheritable: NET_RAW, ambient: NET_RAW, ..user() };
    let mut plans = Vec::new();
    for (gids, nnp) in [(together, false), (together, true), (apart, false), (apart, true)] {
        let start = Thread { credentials: Credentials { gids, nnp, ..ambient }, member: Some(member) };
        for group in [gids.real, gids.effective, gids.saved, apart.filesystem, member, outside] {
            for flags in 0..NO_FILE_CAPS {
                let name = format!("groups {gids:?}, no-new-privs {nnp}, launch of group {group}, flags {flags}");
                plans.push(Plan { name, start, steps: vec![Step::launch(1001, flags, &[]).of_group(group)] });
            }
        }
    }
    plans
}

/// The examples of a directory and the directories in it.
#[derive(Default)]
pub struct Examples {
    pub plans: Vec<Plan>,
    pub slot_plans: Vec<SlotPlan>,
    /// How many are neither: broken texts, and starts that are not valid.
    pub neither: usize,
}

impl Examples {
    /// Reads the files whose names end with `.plan`. A text that could be either is a plan.
    pub fn read(directory: &Path) -> io::Result<Examples> {
        let mut examples = Examples::default();
        examples.read_from(directory)?;
        Ok(examples)
    }

    fn read_from(&mut self, directory: &Path) -> io::Result<()> {
        let mut entries = fs::read_dir(directory)?.map(|entry| Ok(entry?.path())).collect::<io::Result<Vec<_>>>()?;
        entries.sort();
        for path in entries {
            if path.is_dir() {
                self.read_from(&path)?;
            } else if path.extension().is_some_and(|extension| extension == "plan") {
                self.add(path.display().to_string(), &fs::read_to_string(&path)?);
            }
        }
        Ok(())
    }

    fn add(&mut self, name: String, text: &str) {
        let at_start = |credentials| Thread { credentials, member: None };
        if let Some((start, steps)) = parse(text) {
            self.plans.push(Plan { name, start: at_start(start), steps });
        } else if let Some((start, steps)) = family::parse(text) {
            self.slot_plans.push(SlotPlan { name, start: at_start(start), steps });
        } else {
            self.neither += 1;
        }
    }
}

// The library decides what a plan is; its text is then read without further care.
fn parse(text: &str) -> Option<(Credentials, Vec<Step>)> {
    let mut report = [0; urrezkalu::LONGEST_REPORT];
    let urrezkalu::Outcome::Report { .. } = urrezkalu::run_plan(text.as_bytes(), &mut report) else { return None };
    let mut lines = text.lines().peekable();
    let start = Credentials::from_lines(&mut lines)?;
    let mut steps = Vec::new();
    while lines.peek().is_some() {
        steps.push(Step::from_lines(&mut lines)?);
    }
    Some((start, steps))
}

/// Cuts a start to what the machine has. Says whether it had to be cut.
pub fn fit(start: &mut Credentials, permitted: u64, bounding: u64) -> bool {
    let before = *start;
    start.bounding &= bounding;
    start.inheritable &= bounding;
    start.permitted &= permitted;
    start.effective &= start.permitted;
    start.ambient &= start.permitted & start.inheritable;
    before != *start
}
