//! What a call passed on its way.

store::meetings! {
    /// A step of document 01.
    Step STEPS:
    Initialise "page: initialised"
    NewSlot "allocate: new slot"
    NewSlotNoRoom "allocate: no room for slot and record"
    FreeSlot "allocate: free slot, none after it"
    FreeSlotNext "allocate: free slot, another after it"
    FreeSlotNoRoom "allocate: free slot, no room for record"
    AllocateTight "allocate: gap holds exactly what is added"
    AllocateCompactify "allocate: compactified"
    AllocateLastByte "allocate: free space used up"
    CompactifyNothing "compactify: no record"
    CompactifyTie "compactify: two records at one offset"
    CompactifyTieTwoEmpty "compactify: two empty records at one offset"
    CompactifyTarget "compactify: a target"
    CompactifyEmptyInside "compactify: an empty record inside another"
    CompactifyMoved "compactify: a record moved onto its old place"
    EraseAtDataStart "erase: at data start"
    EraseAbove "erase: above data start"
    EraseEmpty "erase: an empty record"
    EraseTarget "erase: a target"
    EraseRedirect "erase: a redirect"
    EraseFirstFree "erase: first free falls"
    EraseNotFirstFree "erase: first free stays"
    EraseLast "erase: last slot, none taken off"
    EraseTrim "erase: last slot, slots taken off"
    RedirectAtDataStart "erase_for_redirect: at data start"
    RedirectAbove "erase_for_redirect: above data start"
    RelocateEqual "relocate: equal"
    RelocateSmaller "relocate: smaller"
    RelocateToNothing "relocate: smaller, to nothing"
    RelocateTargetSmaller "relocate: target smaller"
    RelocateLarger "relocate: larger"
    RelocateLargerCompactify "relocate: larger, compactified"
    RelocateTargetLarger "relocate: target larger"
    RelocateLargerLastByte "relocate: larger, free space used up"
    RelocateLargerRefused "relocate: larger, no room"
    RelocateRedirect "relocate: from a redirect"
    RelocateRedirectEmpty "relocate: from a redirect, to nothing"
    RelocateRedirectCompactify "relocate: from a redirect, compactified"
    RelocateRedirectRefused "relocate: from a redirect, no room"
    RootFits "segment: root page fits"
    FirstForwarding "segment: first forwarding"
    MovesHome "segment: moves home"
    Stays "segment: stays at the target"
    SecondForwarding "segment: second forwarding"
    ReadPlain "read: ordinary record"
    ReadRedirect "read: through a redirect"
    ReadTarget "read: by a target's own id"
    SameClass "inventory: class stays"
    ClassRises "inventory: class rises"
    ClassFalls "inventory: class falls"
    IntoClass15 "inventory: into class 15"
    OutOfClass15 "inventory: out of class 15"
    EntryMoved "inventory: entries moved to a later page"
    EntriesApart "inventory: entries moved to different pages"
    EntryMovedToEnd "inventory: entries moved to n"
    EntryLowered "inventory: entries set to this page"
    EntryNotLowered "inventory: entry of the new class stays"
    UnsoundEmptied "unsound: count 0, and the header of no fresh page"
    UnsoundCount "unsound: count"
    UnsoundDataStartLow "unsound: data start in the directory"
    UnsoundDataStartHigh "unsound: data start past the page"
    UnsoundFirstFree "unsound: first free"
    UnsoundBelow "unsound: record under data start"
    UnsoundBeyond "unsound: record past the page"
    UnsoundEmptyBeyond "unsound: empty record past the page"
    UnsoundOverlap "unsound: records overlap"
    UnsoundTarget "unsound: target under 8 bytes"
    UnsoundFreeSpace "unsound: free space"
    AstrayPast "redirect: to page n or past it"
    AstrayOwn "redirect: to its own page"
    AstrayUnsound "redirect: to an unsound page"
    AstraySlot "redirect: to a slot past the count"
    AstrayKind "redirect: to no target"
    AstrayBack "redirect: target points elsewhere"
    RootUnsound "4: root page"
    NewUnsound "4: new page"
    FullByNeed "7: by need"
    FullByEntry "7: by entry"
    StaleExcluded "8: page is excluded"
    StaleNoRoom "8: no room"
    SlotPast "5: slot past the count"
    SlotFree "5: free slot"
    SlotFresh "5: fresh page"
    ScanFresh "scan: fresh page"
    ScanFree "scan: free slot"
    ScanRedirect "scan: redirect"
    ScanTarget "scan: target"
    ScanPlain "scan: ordinary record"
    ScanDamaged "scan: unsound page"
}

pub struct Notes {
    /// The faults of docs/DIFFERENCES.md that the published Rust meets in the call: bit k is
    /// fault k.
    pub faults: u32,
    pub steps: Vec<u64>,
}

impl Notes {
    pub fn new() -> Notes {
        Notes { faults: 0, steps: vec![0; STEPS.len()] }
    }

    pub fn fault(&mut self, number: u32) {
        self.faults |= 1 << number;
    }

    pub fn fault_if(&mut self, met: bool, number: u32) {
        if met {
            self.fault(number);
        }
    }

    pub fn step(&mut self, step: Step) {
        self.steps[step as usize] += 1;
    }

    pub fn step_if(&mut self, reached: bool, step: Step) {
        if reached {
            self.step(step);
        }
    }
}

impl Default for Notes {
    fn default() -> Notes {
        Notes::new()
    }
}
