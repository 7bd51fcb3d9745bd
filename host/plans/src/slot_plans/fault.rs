//! The kinds of fault of a slot plan.

use crate::broken::Fault;

/// What is wrong with the text of a slot plan.
#[derive(Clone, Copy, Debug, PartialEq, Eq)]
pub enum SlotFault {
    /// One that a plan can have, anywhere in the text.
    OfPlans(Fault),
    /// One that a plan can have, in the line of a slot or with that line.
    InSlotLine(Fault),
    /// The steps are those of a plan: none has a slot.
    NoSlots,
    /// The slot's line is the last of its step.
    SlotLast,
}

impl SlotFault {
    /// The faults of a plan that can be in the line of a slot: there a line lost is a step of a plan among those of a slot plan, and the line exchanged
    /// with the next a slot after its call.
    pub const IN_SLOT_LINES: [Fault; 15] = [
        Fault::NotADigit,
        Fault::LeadingZero,
        Fault::Sign,
        Fault::TooLarge,
        Fault::NoDigits,
        Fault::Blank,
        Fault::WrongKey,
        Fault::CarriageReturn,
        Fault::Nul,
        Fault::NotAscii,
        Fault::BlankLine,
        Fault::LineLost,
        Fault::LineDoubled,
        Fault::LinesExchanged,
        Fault::CutInLine,
    ];

    /// All of them.
    pub fn all() -> impl Iterator<Item = SlotFault> {
        let of_plans = Fault::ALL.map(SlotFault::OfPlans);
        let in_slot_lines = SlotFault::IN_SLOT_LINES.map(SlotFault::InSlotLine);
        of_plans.into_iter().chain(in_slot_lines).chain([SlotFault::NoSlots, SlotFault::SlotLast])
    }
}
