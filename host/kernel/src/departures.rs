//! The named departures: where the kernel is known to do something else than the paper says. Each is a switch of the model in `launching`,
//! `attribute` and `calls`: with all switches off the model is the paper, with all on it is the kernel. docs/KERNEL.md has each rule in full.

departures::departures! {
    /// A set-group-ID bit for another group that the thread is in leaves the ambient set.
    SetGroupIdToMemberGroup "set-group-id-to-member-group",
    /// A set-group-ID bit of a file that its group may not execute is ignored.
    SetGroupIdWithoutGroupExecution "set-group-id-without-group-execution",
    /// A thread that is not in its own effective group counts as changing an ID in every launch.
    FilesystemGroupApart "filesystem-group-apart",
    /// The attribute counts under no-new-privs.
    NoNewPrivsReadsAttribute "no-new-privs-reads-attribute",
    /// Under no-new-privs an attribute gives only what was permitted before.
    NoNewPrivsCutsGain "no-new-privs-cuts-gain",
    /// Under no-new-privs root is given only what was permitted before.
    NoNewPrivsCutsRoot "no-new-privs-cuts-root",
    /// Where there is a gain to cut or an ID changes, no-new-privs sets the effective ID to the real one.
    NoNewPrivsResetsEffectiveId "no-new-privs-resets-effective-id",
    /// In the same event it sets the effective group to the real one.
    NoNewPrivsResetsEffectiveGroup "no-new-privs-resets-effective-group",
    /// Set-ID bits count in a traced launch.
    TracedHonoursSetId "traced-honours-set-id",
    /// The attribute counts in a traced launch.
    TracedReadsAttribute "traced-reads-attribute",
    /// Without SYS_PTRACE in the tracer an attribute gives only what was permitted before.
    TracedCutsGain "traced-cuts-gain",
    /// Without SYS_PTRACE in the tracer root is given only what was permitted before.
    TracedCutsRoot "traced-cuts-root",
    /// Where such a launch gains or changes an ID, and the thread has no SETUID, the effective ID becomes the real one.
    TracedResetsEffectiveId "traced-resets-effective-id",
    /// In the same event the effective group becomes the real one: this too depends on SETUID.
    TracedResetsEffectiveGroup "traced-resets-effective-group",
    /// An attribute's bits above 40 are dropped.
    AttributeHighBitsMasked "attribute-bits-above-40-masked",
    /// Other bits of an attribute's first word are ignored.
    AttributeOtherBitsIgnored "attribute-other-bits-ignored",
    /// A version 3 attribute of root ID 0 counts as version 2 does.
    AttributeVersion3Honoured "attribute-version-3",
    /// A version 3 attribute of another root ID counts as none attached.
    AttributeVersion3OtherRoot "attribute-version-3-other-root",
    /// An attribute that is attached and has no bytes is unreadable.
    AttributeWithoutBytes "attribute-without-bytes",
    /// capset drops bits above 40.
    CapsetHighBitsMasked "capset-bits-above-40-masked",
    /// Without SETPCAP a drop of a number above 40 is refused with 1.
    BoundingDropAsksFirst "bounding-drop-asks-first",
    /// The kernel has four more securebits, and setting them needs no SETPCAP.
    SecurebitsOfPrograms "securebits-100-to-fff",
    /// Securebits that the kernel does not have are refused with 1.
    SecurebitsUnknown "securebits-above-fff",
    /// Of an ID's 64 bits the kernel takes the low 32.
    WideIdCut "wide-id-cut",
    /// An operand that the call does not use is not looked at.
    UnusedOperandIgnored "unused-operand-ignored",
    /// setresuid that changes none of its three IDs leaves the filesystem ID.
    SetresuidWithoutChange "setresuid-without-change",
    /// setresgid that changes none of its three IDs leaves the filesystem group.
    SetresgidWithoutChange "setresgid-without-change",
}
