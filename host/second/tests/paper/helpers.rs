//! Starts, steps and texts that the tests share.

use second::{compare_status, perform, run_plan, Answer, Credentials, Outcome, Step, Written};

pub const FULL: u64 = 0x0000_01ff_ffff_ffff;

pub const SETGID: u64 = 1 << 6;
pub const SETUID: u64 = 1 << 7;
pub const SETPCAP: u64 = 1 << 8;
pub const NET_BIND_SERVICE: u64 = 1 << 10;
pub const NET_ADMIN: u64 = 1 << 12;
pub const NET_RAW: u64 = 1 << 13;
pub const SYS_RAWIO: u64 = 1 << 17;

/// The header's capabilities by number, in lower case.
pub const NAMES: [&str; 41] = [
    "cap_chown",              // 0
    "cap_dac_override",       // 1
    "cap_dac_read_search",    // 2
    "cap_fowner",             // 3
    "cap_fsetid",             // 4
    "cap_kill",               // 5
    "cap_setgid",             // 6
    "cap_setuid",             // 7
    "cap_setpcap",            // 8
    "cap_linux_immutable",    // 9
    "cap_net_bind_service",   // 10
    "cap_net_broadcast",      // 11
    "cap_net_admin",          // 12
    "cap_net_raw",            // 13
    "cap_ipc_lock",           // 14
    "cap_ipc_owner",          // 15
    "cap_sys_module",         // 16
    "cap_sys_rawio",          // 17
    "cap_sys_chroot",         // 18
    "cap_sys_ptrace",         // 19
    "cap_sys_pacct",          // 20
    "cap_sys_admin",          // 21
    "cap_sys_boot",           // 22
    "cap_sys_nice",           // 23
    "cap_sys_resource",       // 24
    "cap_sys_time",           // 25
    "cap_sys_tty_config",     // 26
    "cap_mknod",              // 27
    "cap_lease",              // 28
    "cap_audit_write",        // 29
    "cap_audit_control",      // 30
    "cap_setfcap",            // 31
    "cap_mac_override",       // 32
    "cap_mac_admin",          // 33
    "cap_syslog",             // 34
    "cap_wake_alarm",         // 35
    "cap_block_suspend",      // 36
    "cap_audit_read",         // 37
    "cap_perfmon",            // 38
    "cap_bpf",                // 39
    "cap_checkpoint_restore", // 40
];

pub const NOROOT: u8 = 0x01;
pub const NOROOT_LOCKED: u8 = 0x02;
pub const NO_SETUID_FIXUP: u8 = 0x04;
pub const NO_SETUID_FIXUP_LOCKED: u8 = 0x08;
pub const KEEP_CAPS: u8 = 0x10;
pub const KEEP_CAPS_LOCKED: u8 = 0x20;
pub const NO_CAP_AMBIENT_RAISE: u8 = 0x40;
pub const NO_CAP_AMBIENT_RAISE_LOCKED: u8 = 0x80;

pub const SET_USER_ID: u64 = 1;
pub const SET_GROUP_ID: u64 = 2;
pub const NOSUID: u64 = 4;
pub const TRACED: u64 = 8;
pub const NO_FILE_CAPS: u64 = 16;

/// The operand that leaves an ID.
pub const LEAVE: u64 = 4_294_967_295;

/// The quoted attribute: NET_RAW permitted, bit on.
pub const QUOTED: &str = "0100000200200000000000000000000000000000";

/// The start of the bench: user and group IDs 1000, bounding set full, the rest empty.
pub fn user() -> Credentials {
    Credentials {
        ruid: 1000,
        euid: 1000,
        suid: 1000,
        fsuid: 1000,
        rgid: 1000,
        egid: 1000,
        sgid: 1000,
        fsgid: 1000,
        permitted: 0,
        inheritable: 0,
        effective: 0,
        bounding: FULL,
        ambient: 0,
        securebits: 0,
        nnp: false,
    }
}

/// As `user`, all user IDs 0.
pub fn root() -> Credentials {
    with_ids(user(), 0, 0, 0, 0)
}

/// As `root`, permitted and effective full.
pub fn full_root() -> Credentials {
    Credentials { permitted: FULL, effective: FULL, ..root() }
}

/// As `user`, permitted, inheritable, effective and ambient {NET_RAW}.
pub fn ambient_user() -> Credentials {
    Credentials { permitted: NET_RAW, inheritable: NET_RAW, effective: NET_RAW, ambient: NET_RAW, ..user() }
}

/// The same with these user IDs.
pub fn with_ids(credentials: Credentials, ruid: u32, euid: u32, suid: u32, fsuid: u32) -> Credentials {
    Credentials { ruid, euid, suid, fsuid, ..credentials }
}

/// The user IDs.
pub fn ids(credentials: &Credentials) -> [u32; 4] {
    [credentials.ruid, credentials.euid, credentials.suid, credentials.fsuid]
}

/// The same with these group IDs.
pub fn with_groups(credentials: Credentials, rgid: u32, egid: u32, sgid: u32, fsgid: u32) -> Credentials {
    Credentials { rgid, egid, sgid, fsgid, ..credentials }
}

/// The group IDs.
pub fn groups(credentials: &Credentials) -> [u32; 4] {
    [credentials.rgid, credentials.egid, credentials.sgid, credentials.fsgid]
}

pub fn step(call: u8, a: u64, b: u64, c: u64) -> Step {
    Step { call, a, b, c, attr: Vec::new() }
}

/// The launch of a file of group 0.
pub fn execve(owner: u64, flags: u64, attr: Vec<u8>) -> Step {
    Step { call: 1, a: owner, b: flags, c: 0, attr }
}

/// The launch of a file of this group.
pub fn of_group(group: u64, launch: Step) -> Step {
    Step { c: group, ..launch }
}

/// A version 2 attribute.
pub fn attribute(permitted: u64, inheritable: u64, effective: bool) -> Vec<u8> {
    let mut bytes = vec![u8::from(effective), 0, 0, 2];
    for word in [permitted as u32, inheritable as u32, (permitted >> 32) as u32, (inheritable >> 32) as u32] {
        bytes.extend_from_slice(&word.to_le_bytes());
    }
    bytes
}

/// Performs a call that the rules allow, and gives the value and the credentials after it.
pub fn done(before: &Credentials, step: &Step) -> (u64, Credentials) {
    let Answer { code, value, cause, after } = perform(before, step);
    assert_eq!((code, cause), (0, 0), "{step:?} on {before:?}");
    assert!(after.is_valid(), "{step:?} on {before:?}");
    (value, after)
}

/// The credentials after a call that the rules allow and that reads nothing.
pub fn after(before: &Credentials, step: &Step) -> Credentials {
    let (value, after) = done(before, step);
    assert_eq!(value, 0);
    after
}

/// A call that is refused with 22, 60 or 72 answers its code, value 0, cause 0 and the credentials as they were.
pub fn assert_refused(before: &Credentials, step: &Step, code: u32) {
    assert!([22, 60, 72].contains(&code), "refusal 1 has a cause");
    let answer = Answer { code, value: 0, cause: 0, after: before.clone() };
    assert_eq!(perform(before, step), answer, "{step:?} on {before:?}");
}

/// A call that the rules do not allow answers 1, value 0, its cause and the credentials as they were.
pub fn assert_not_permitted(before: &Credentials, step: &Step, cause: u32) {
    assert!((1..=11).contains(&cause), "there are eleven causes");
    let answer = Answer { code: 1, value: 0, cause, after: before.clone() };
    assert_eq!(perform(before, step), answer, "{step:?} on {before:?}");
}

/// The sheet of case 2.
pub const SHEET: &str = "\
ruid=1000
euid=1000
suid=1000
fsuid=1000
rgid=1000
egid=1000
sgid=1000
fsgid=1000
permitted=0000000000002000
inheritable=0000000000002000
effective=0000000000002000
bounding=000001ffffffffff
ambient=0000000000002000
securebits=00
nnp=0
";

/// A plain launch.
pub const LAUNCH: &str = "\
call=1
a=0000000000000000
b=0000000000000000
c=0000000000000000
attr=
";

/// The paper's whole report of case 2, one step.
pub const REPORT: &str = "\
code=0
value=0000000000000000
cause=0
ruid=1000
euid=1000
suid=1000
fsuid=1000
rgid=1000
egid=1000
sgid=1000
fsgid=1000
permitted=0000000000002000
inheritable=0000000000002000
effective=0000000000002000
bounding=000001ffffffffff
ambient=0000000000002000
securebits=00
nnp=0
";

/// The text of steps without an attribute.
pub fn steps(steps: &[(u8, [u64; 3])]) -> String {
    let mut text = String::new();
    for (call, [a, b, c]) in steps {
        text += &format!("call={call}\na={a:016x}\nb={b:016x}\nc={c:016x}\nattr=\n");
    }
    text
}

/// The outcome of a plan, and its report; a refused plan must leave the buffer alone.
pub fn run(plan: &[u8]) -> (Outcome, String) {
    let mut buffer = vec![0xa5; 16384];
    let outcome = run_plan(plan, &mut buffer);
    let length = if let Outcome::Report { length } = outcome { length } else { 0 };
    assert!(buffer[length..].iter().all(|&byte| byte == 0xa5));
    (outcome, String::from_utf8(buffer[..length].to_vec()).unwrap())
}

pub fn assert_malformed(plan: &[u8], line: u32) {
    let outcome = run(plan).0;
    assert_eq!(outcome, Outcome::Malformed { line }, "{:?}", String::from_utf8_lossy(plan));
}

/// The seven wanted lines of a status that agrees with case 2's sheet.
pub const STATUS: &str = "\
Uid:\t1000\t1000\t1000\t1000
CapInh:\t0000000000002000
CapPrm:\t0000000000002000
CapEff:\t0000000000002000
CapBnd:\t000001ffffffffff
CapAmb:\t0000000000002000
NoNewPrivs:\t0
";

/// The names of the wanted lines, each at its place.
pub const WANTED: [&str; 7] = ["Uid", "CapInh", "CapPrm", "CapEff", "CapBnd", "CapAmb", "NoNewPrivs"];

/// The last line of every list of what differs, 36 bytes long.
pub const LAST_LINE: &str = "not compared: securebits, group IDs\n";

/// The status with its line `number` put in other words.
pub fn status_with_line(number: usize, new: &str) -> String {
    let mut lines: Vec<&str> = STATUS.split_inclusive('\n').collect();
    lines[number - 1] = new;
    lines.concat()
}

/// What a status beside a sheet comes to, and its list; bytes past the list must stay.
pub fn compare(status: &[u8], sheet: &[u8]) -> (Written, String) {
    let mut buffer = [0xa5; 400];
    let written = compare_status(status, sheet, &mut buffer);
    let length = if written.code == 0 { written.number as usize } else { 0 };
    assert!(buffer[length..].iter().all(|&byte| byte == 0xa5));
    (written, String::from_utf8(buffer[..length].to_vec()).unwrap())
}

/// The status beside the sheet gives just this list.
pub fn assert_lists(status: impl AsRef<[u8]>, sheet: &str, expected: &str) {
    let status = status.as_ref();
    let written = Written { code: 0, number: expected.len() as u32 };
    let shown = String::from_utf8_lossy(status);
    assert_eq!(compare(status, sheet.as_bytes()), (written, expected.to_string()), "{shown:?} beside {sheet}");
}

/// Nothing in the status differs from case 2's sheet.
pub fn assert_agrees(status: impl AsRef<[u8]>) {
    assert_lists(status, SHEET, LAST_LINE);
}

/// The status is malformed at this line, whatever the sheet is and whether there is room or not, and every byte stays.
pub fn assert_status_malformed(status: impl AsRef<[u8]>, line: u32) {
    let status = status.as_ref();
    let not_valid = SHEET.replace("ruid=1000", "ruid=4294967295");
    for sheet in [SHEET, "", &not_valid] {
        for length in [0, 36, 372, 400] {
            let mut buffer = vec![0xa5; length];
            let written = compare_status(status, sheet.as_bytes(), &mut buffer);
            assert_eq!(written, Written { code: 70, number: line }, "{:?}", String::from_utf8_lossy(status));
            assert!(buffer.iter().all(|&byte| byte == 0xa5));
        }
    }
}
