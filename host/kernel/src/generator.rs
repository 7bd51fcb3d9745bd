//! Random plans, biased so that calls are done and refused about equally often. Operands are chosen about what the thread holds at that step,
//! which the model of the kernel says.

use crate::attribute::{version_2, version_3};
use crate::calls::perform;
use crate::credentials::*;
use crate::departures::Switches;
use crate::image::Image;
use crate::random::Random;
use crate::step::*;

const LONGEST: u64 = 8;
const USERS: [u32; 6] = [0, 0, 1000, 1001, 1002, u32::MAX - 1];
const GROUPS: [u32; 6] = [0, 1000, 2000, 2001, MEMBER, u32::MAX - 1];

/// A group that some threads are in besides their own.
const MEMBER: u32 = 3000;

/// The capabilities that decide whether a call is allowed.
const DECIDING: u64 = 1 << CAP_SETGID | 1 << CAP_SETUID | 1 << CAP_SETPCAP | 1 << CAP_SYS_PTRACE;

/// Makes plans within what the machine has.
pub struct Generator<'a> {
    pub random: Random,
    pub image: &'a Image,
    pub permitted: u64,
    pub bounding: u64,
}

impl Generator<'_> {
    /// A plan of one to eight steps.
    pub fn plan(&mut self, name: String) -> Plan {
        let start = self.start();
        let mut thread = start;
        let mut steps = Vec::new();
        for _ in 0..1 + self.random.below(LONGEST) {
            // Securebits above ff have no sheet, and the library can say nothing of what follows: the plan ends soon.
            if !thread.credentials.has_sheet() && self.random.chance(30) {
                break;
            }
            let step = self.step(&thread);
            if step.not_run().is_none() {
                thread = perform(Switches::EVERY, &thread, &step).after;
            }
            steps.push(step);
        }
        Plan { name, start, steps }
    }

    /// A thread within what the machine has.
    pub fn start(&mut self) -> Thread {
        let bounding = match self.random.below(4) {
            0 | 1 => self.bounding,
            2 => self.bounding & !self.some(),
            _ => self.bounding & self.many(),
        };
        let permitted = self.permitted
            & match self.random.below(7) {
                0 => 0,
                1 => self.some(),
                2 => self.many(),
                3 => self.many() | DECIDING,
                4 => bounding,
                _ => FULL,
            };
        let effective = if self.random.chance(40) { permitted } else { permitted & self.part() };
        let inheritable = self.bounding & if self.random.chance(40) { FULL } else { self.part() };
        let ambient = permitted & inheritable & self.part();
        let securebits = match self.random.below(4) {
            0 => self.random.below(256) as u32,
            1 => self.random.below(256) as u32 & !SECBITS_LOCKS & !SECBIT_NO_CAP_AMBIENT_RAISE,
            _ => 0,
        };
        let credentials = Credentials {
            uids: self.ids(&USERS),
            gids: self.ids(&GROUPS),
            permitted,
            inheritable,
            effective,
            bounding,
            ambient,
            securebits,
            nnp: self.random.chance(20),
        };
        let member = self.random.chance(40).then_some(MEMBER);
        Thread { credentials, member }
    }

    fn ids(&mut self, among: &[u32]) -> Ids {
        let id = self.random.pick(among);
        if self.random.chance(35) {
            return Ids::all(id);
        }
        let [real, effective, saved, filesystem] = [(); 4].map(|()| self.random.pick(among));
        let filesystem = if self.random.chance(50) { effective } else { filesystem };
        Ids { real, effective, saved, filesystem }
    }

    // A few capabilities, often those that decide whether a call is allowed.
    fn some(&mut self) -> u64 {
        (0..1 + self.random.below(4)).fold(0, |set, _| {
            let capability = self.random.below(CAP_LAST_CAP + 1);
            let one = if self.random.chance(40) { DECIDING & self.random.number() } else { 1 << capability };
            set | one
        })
    }

    fn many(&mut self) -> u64 {
        self.random.number() & FULL
    }

    // A mask that leaves all, none, some or many.
    fn part(&mut self) -> u64 {
        match self.random.below(5) {
            0 => 0,
            1 => self.some(),
            2 => self.many(),
            3 => FULL & !self.some(),
            _ => FULL,
        }
    }

    /// A call of that thread. One whose securebits have no sheet is given others.
    pub fn step(&mut self, thread: &Thread) -> Step {
        let old = &thread.credentials;
        if !old.has_sheet() {
            return Step::with(SET_SECUREBITS, self.securebits(old), 0, 0);
        }
        let can_raise = old.permitted & old.inheritable != 0 && !old.is_secure(SECBIT_NO_CAP_AMBIENT_RAISE);
        let mut step = match self.random.below(100) {
            0..=39 => return self.launch(thread),
            // A call that is sure to be refused is made less often.
            49..=51 | 67..=70 if !old.has(CAP_SETPCAP) => return self.launch(thread),
            53..=56 if !can_raise => return self.launch(thread),
            40..=48 => self.capset(old),
            49..=52 => Step::with(BOUNDING_DROP, self.capability(old.bounding), 0, 0),
            53..=57 => Step::with(AMBIENT_RAISE, self.capability(old.permitted & old.inheritable), 0, 0),
            58..=66 => {
                let call = self.random.pick(&[BOUNDING_READ, AMBIENT_LOWER, AMBIENT_IS_SET]);
                let likely = self.random.pick(&[old.bounding, old.ambient]);
                Step::with(call, self.capability(likely), 0, 0)
            }
            67..=72 => Step::with(SET_SECUREBITS, self.securebits(old), 0, 0),
            73 | 74 => Step::with(SET_KEEP_CAPS, self.random.pick(&[0, 1, 1, 1, 2, u64::MAX]), 0, 0),
            75 => Step::with(SET_NO_NEW_PRIVS, self.random.pick(&[1, 1, 1, 0, 2, 1 << 32 | 1]), 0, 0),
            76..=78 => Step::new(self.random.pick(&[AMBIENT_CLEAR, GET_SECUREBITS, GET_KEEP_CAPS, GET_NO_NEW_PRIVS])),
            _ => self.id_call(old),
        };
        if self.random.chance(3) {
            let operand = 1 + self.random.below(3);
            let spoilt = self.random.pick(&[0, 1, 2]);
            *[&mut step.a, &mut step.b, &mut step.c][spoilt] = operand;
        }
        match self.random.below(200) {
            0 => step.attribute = version_2(0, 0, false),
            1 => step.call = self.random.pick(&[0, 23, 24, 99]),
            _ => {}
        }
        step
    }

    fn launch(&mut self, thread: &Thread) -> Step {
        let Credentials { uids, gids, .. } = thread.credentials;
        let flags = if self.random.chance(30) { 0 } else { self.random.below(16) };
        let owner = self.random.pick(&[0, 0, uids.effective, uids.effective, uids.real, 1000, 1001, u32::MAX - 1]);
        let group = self.random.pick(&[0, gids.effective, gids.effective, gids.filesystem, MEMBER, 2000, u32::MAX - 1]);
        let mut step = if self.random.chance(15) {
            let number = self.random.below(self.image.files.len() as u64) as u32;
            self.image.launch(number, flags)
        } else {
            Step::launch(owner, flags, &self.attribute(&thread.credentials)).of_group(group)
        };
        if self.random.chance(40) {
            step.setting.tracer = Tracer::Seized;
        }
        // A thread in the file's group could not launch it then.
        let is_outside = step.setting.image.is_none() && !thread.is_in_group(group);
        step.setting.without_group_execution = is_outside && self.random.chance(10);
        match self.random.below(100) {
            0 => step.b |= NO_FILE_CAPS,
            1 => step.b |= 32,
            2 => step.c = self.random.pick(&[u64::from(LEAVE), step.c + (1 << 32)]),
            3 => step.a += 1 << 32,
            _ => {}
        }
        step
    }

    // An attribute about the thread's sets: often within what it may give, sometimes with more.
    fn attribute(&mut self, old: &Credentials) -> Vec<u8> {
        let mut set = |around: u64| match self.random.below(6) {
            0 => 0,
            1 => around & self.part(),
            2 => old.permitted & self.part(),
            3 => self.some(),
            4 => around & self.part() | self.some(),
            _ => self.many(),
        };
        let (mut permitted, mut inheritable) = (set(old.bounding), set(old.inheritable));
        let effective = self.random.chance(50);
        if self.random.chance(8) {
            let high = self.random.number() & !FULL;
            permitted |= high;
            inheritable |= high.rotate_left(20) & !FULL;
        }
        match self.random.below(100) {
            0..=44 => Vec::new(),
            45..=91 => version_2(permitted, inheritable, effective),
            _ => {
                let root = self.random.pick(&[0, 0, 0, 1, 1000, u32::MAX - 1]);
                version_3(permitted, inheritable, effective, root)
            }
        }
    }

    fn capset(&mut self, old: &Credentials) -> Step {
        let extra = |generator: &mut Self| if generator.random.chance(12) { generator.some() } else { 0 };
        let mut permitted = old.permitted & self.part() | extra(self);
        let mut inheritable = (old.inheritable | old.permitted & old.bounding) & self.part() | extra(self);
        let mut effective = permitted & self.part() | extra(self);
        if self.random.chance(30) {
            inheritable = (old.inheritable | old.bounding) & self.part();
        }
        if self.random.chance(8) {
            let high = 1 << (41 + self.random.below(23));
            let spoilt = self.random.below(3) as usize;
            *[&mut permitted, &mut inheritable, &mut effective][spoilt] |= high;
        }
        Step::with(CAPSET, permitted, inheritable, effective)
    }

    // Mostly one of the likely ones, now and then a number that is no capability.
    fn capability(&mut self, likely: u64) -> u64 {
        let members: Vec<u64> = (0..=CAP_LAST_CAP).filter(|capability| likely >> capability & 1 == 1).collect();
        match self.random.below(10) {
            0 => self.random.pick(&[41, 42, 63, 64, 65, 1 << 32, u64::MAX]),
            1..=6 if !members.is_empty() => self.random.pick(&members),
            _ => self.random.below(CAP_LAST_CAP + 1),
        }
    }

    fn securebits(&mut self, old: &Credentials) -> u64 {
        let present = u64::from(old.securebits);
        match self.random.below(10) {
            0 | 1 => present ^ self.random.below(16) << 8,
            2 => self.random.pick(&[0x100, 0x1000, 0xfff, 1 << 32, u64::MAX]) | present,
            3 => self.random.below(256),
            4 => present,
            5..=7 => present ^ 1 << self.random.below(8),
            // Only flags that are not locked, and no lock taken back.
            _ => present ^ (self.random.below(256) & 0x55 & !(present >> 1)) | self.random.below(256) & 0xaa,
        }
    }

    fn id_call(&mut self, old: &Credentials) -> Step {
        let (ids, among, [set, set_two, set_three, set_filesystem]) =
            if self.random.chance(50) { (old.uids, USERS, USER_ID_CALLS) } else { (old.gids, GROUPS, GROUP_ID_CALLS) };
        let Ids { real, effective, saved, filesystem } = ids;
        let mut id = || match self.random.below(20) {
            0..=9 => u64::from(self.random.pick(&[real, effective, saved, filesystem])),
            10..=13 => u64::from(self.random.pick(&among)),
            14 => u64::from(self.random.pick(&among)) | (1 + self.random.below(2)) << 32,
            _ => u64::from(LEAVE),
        };
        let (a, b, c) = (id(), id(), id());
        let leave = u64::from(LEAVE);
        match self.random.below(6) {
            0 => Step::with(set, a, 0, 0),
            1 => Step::with(set_two, a, b, 0),
            2 | 3 => Step::with(set_three, a, b, c),
            // Nothing new for the real and the saved ID.
            4 if self.random.chance(50) => {
                Step::with(set_three, self.random.pick(&[leave, u64::from(real)]), leave, u64::from(saved))
            }
            _ => Step::with(set_filesystem, a, 0, 0),
        }
    }
}
